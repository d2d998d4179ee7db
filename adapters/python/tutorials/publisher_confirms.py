"""RabbitMQ's tutorial 7, publisher confirms: publisher_confirms.py URL [N]. One at a time, in batches, and as they come."""
import sys
import time

import lapin

url, count = sys.argv[1], int(sys.argv[2]) if len(sys.argv) > 2 else 10_000


def one_at_a_time(channel, queue, bodies):
    for body in bodies:
        assert channel.publish("", queue, body).wait()


def in_batches(channel, queue, bodies):
    for start in range(0, len(bodies), 100):
        confirms = [channel.publish("", queue, body) for body in bodies[start:start + 100]]
        assert all(confirm.wait() for confirm in confirms)


def as_they_come(channel, queue, bodies):
    waiting = {}
    for body in bodies:
        waiting[channel.publish("", queue, body)] = body
        if len(waiting) >= 500:
            channel.connection.turn()
            for confirm in [it for it in waiting if it.poll() is not None]:
                del waiting[confirm]
    assert all(confirm.wait() for confirm in waiting)


with lapin.connect(url) as connection:
    channel = connection.channel(confirms=True)
    queue = channel.queue_declare(exclusive=True).name
    for way in (one_at_a_time, in_batches, as_they_come):
        start = time.monotonic()
        way(channel, queue, [str(number).encode() for number in range(count)])
        print(f" [x] {way.__name__}: {count} messages in {time.monotonic() - start:.2f} s, {channel.queue_purge(queue)} in the queue", flush=True)

"""What a connection of many threads costs: threads.py URL [ROUNDS [WORD]], with a word only the rows that have it. Processor time a confirmed
publish, one thread plain and threaded with 1 and 8 threads, in windows of 1, 100 and 1,000, and a delivery that is acknowledged; the least of several
rounds, which are made in turn.

A window is published and then each of its confirms waited for. The time is all of the process's, of every thread.
"""
import os
import sys
import threading
import time

sys.path.insert(0, os.path.dirname(os.path.dirname(os.path.abspath(__file__))))
import lapin  # noqa: E402

QUEUE, BODY = "bench.threads", bytes(100)
COUNTS = {1: 2_000, 100: 16_000, 1000: 24_000}


def published(channel, count, window):
    for _ in range(count // window):
        for confirm in [channel.publish("", QUEUE, BODY) for _ in range(window)]:
            if not confirm.wait():
                raise AssertionError("it wasn't acknowledged")


def by_threads(number, call):
    threads = [threading.Thread(target=call) for _ in range(number)]
    for thread in threads:
        thread.start()
    for thread in threads:
        thread.join()


def spent(call, count):
    """Microseconds of processor time for each of so many."""
    before = time.process_time()
    call()
    return (time.process_time() - before) / count * 1e6


def publishes(url, is_threaded, number, window):
    """Of a confirmed publish."""
    count = COUNTS[window]
    with lapin.connect(url, threads=is_threaded) as connection:
        channel = connection.channel(confirms=True)
        published(channel, 2 * window, window)
        each = max(count // number, window)
        found = spent(lambda: published(channel, count, window) if number == 1 else by_threads(number, lambda: published(channel, each, window)),
                      count if number == 1 else each // window * window * number)
        channel.queue_purge(QUEUE)
        return found


def deliveries(url, is_threaded, number, count=6_000):
    """Of a delivery that is acknowledged: by an iteration, or for `number` 0 by a callback."""
    with lapin.connect(url, threads=is_threaded) as connection:
        channel = connection.channel(confirms=True)
        published(channel, count, 1000)
        reader, left = connection.channel(prefetch=500), [count]
        gone = lambda message: (message.ack(), left.__setitem__(0, left[0] - 1), left[0] or connection.stop())  # noqa: E731

        def iterate():
            for message in reader.consume(QUEUE).messages(inactivity_timeout=1):
                message.ack()
                left[0] -= 1
                if not left[0]:
                    return

        def run():
            reader.consume(QUEUE, gone)
            connection.run()
        found = spent(iterate if number else run, count)
        reader.close()
        return found


def main(url, rounds="5", word=""):
    with lapin.connect(url) as connection:
        connection.channel().queue_declare(QUEUE)
        connection.channel().queue_purge(QUEUE)
    rows = [(f"a confirmed publish, window {window}", publishes, window) for window in COUNTS]
    for name, call, *more in rows:
        if word not in name:
            continue
        found = {key: [] for key in ((False, 1), (True, 1), (True, 8))}
        for _ in range(int(rounds)):
            for key in found:
                found[key].append(call(url, *key, *more))
        plain, one, eight = map(min, found.values())
        print(f"{name}: plain {plain:.1f} us, threaded {one:.1f} ({one / plain:.2f}), of eight threads {eight:.1f} ({eight / plain:.2f})", flush=True)
    for name, number in (("a delivery acknowledged, iterated over", 1), ("a delivery acknowledged, by a callback", 0)):
        if word not in name:
            continue
        found = {key: [] for key in (False, True)}
        for _ in range(int(rounds)):
            for key in found:
                found[key].append(deliveries(url, key, number))
        plain, one = map(min, found.values())
        print(f"{name}: plain {plain:.1f} us, threaded {one:.1f} ({one / plain:.2f})", flush=True)
    with lapin.connect(url) as connection:
        connection.channel().queue_delete(QUEUE)


if __name__ == "__main__":
    main(*sys.argv[1:])

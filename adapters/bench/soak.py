#!/usr/bin/env python3
"""A soak against a RabbitMQ: soak.py URL [PUBLISHES [CUTS]]. The connection is cut at random places; each publish has one outcome, and no
message was acked that isn't in the queue.

A message is its number in eight octets; the queue is read at the end, without the library's help, as numbers.
"""
import os
import random
import struct
import sys
import time

sys.path.insert(0, f"{os.path.dirname(os.path.dirname(os.path.abspath(__file__)))}/python")
import lapin  # noqa: E402

WINDOW = 1000


def one_connection(url, numbers, fate, draw, cut_at):
    """Publishes numbers until there are none or the connection is cut."""
    connection = lapin.connect(url, heartbeat=0)
    channel = connection.channel(confirms=True)
    waiting, sent = [], 0
    try:
        while numbers or waiting:
            while numbers and len(waiting) < WINDOW:
                try:
                    confirm = channel.publish("", "soak", struct.pack(">Q", numbers[-1]))
                except lapin.Refused:  # the connection is lost: nothing was published
                    break
                waiting.append((numbers.pop(), confirm))
                sent += 1
                if sent == cut_at:
                    if draw.random() < 0.5:
                        connection.flush()
                    connection._wire.socket.shutdown(draw.choice((0, 1, 2)))
            connection.turn(10)
            done = 0
            for number, confirm in waiting:
                outcome = confirm.poll()
                if outcome is None:
                    break
                assert fate[number] == 0, "two outcomes"
                fate[number], done = 1 if outcome else 2, done + 1
            del waiting[:done]
    except lapin.ConnectionLost:
        pass
    for number, confirm in waiting:
        try:
            outcome = confirm.poll()
            assert outcome is not None, "a publish without an outcome after the loss"
            found = 1 if outcome else 2
        except lapin.CallFailed as error:
            assert error.cause == "ConnectionLost", error
            found = 3
        assert fate[number] == 0, "two outcomes"
        fate[number] = found
    connection.close()


def main(url, publishes=1_000_000, cuts=100):
    draw, start = random.Random(17), time.monotonic()
    publishes, cuts = int(publishes), int(cuts)
    fate, numbers, was_cut = bytearray(publishes), list(range(publishes - 1, -1, -1)), 0
    with lapin.connect(url, heartbeat=0) as watcher:
        channel = watcher.channel()
        channel.queue_declare("soak")
        channel.queue_purge("soak")
        while numbers:
            cut_at = draw.randrange(1, publishes // cuts) if was_cut < cuts else 0
            was_cut += cut_at > 0
            one_connection(url, numbers, fate, draw, cut_at)
        assert 0 not in fate, "a publish without an outcome"
        there = bytearray(publishes)
        consumer = channel.consume("soak", no_ack=True)
        left = channel.queue_declare("soak", passive=True).messages
        while True:
            try:
                message = consumer.next(3)
            except lapin.Timeout:
                break
            there[struct.unpack(">Q", message.body)[0]] += 1
        lost = sum(1 for number in range(publishes) if fate[number] == 1 and not there[number])
        acks, nacks, errors = (fate.count(kind) for kind in (1, 2, 3))
        print(f"{publishes} publishes, {was_cut} cuts: {acks} acks, {nacks} nacks, {errors} lost with their connection, of which "
              f"{sum(1 for number in range(publishes) if fate[number] == 3 and there[number])} are in the queue; {lost} acked and not in the queue; "
              f"{sum(1 for many in there if many > 1)} twice; {time.monotonic() - start:.0f} s ({left} seen at first)")
        channel.queue_delete("soak")
        return lost


if __name__ == "__main__":
    sys.exit(main(*sys.argv[1:]) > 0)

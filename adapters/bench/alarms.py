#!/usr/bin/env python3
"""Publishes under alarms and cuts: alarms.py URL [PUBLISHES [CUTS]]. Each tenth is to nobody and mandatory, as half of the others are; exceptions
fall at random places, the connection is cut at random places, and each publish has one outcome, its own.

A message is its number. Told wrongly are: an ack of a message that is in no queue; a message that came back with another one's outcome, or with
one that was routed; a message to nobody that was told an ack without it; a nack that no broker sent.
"""
import collections
import os
import random
import signal
import sys
import time

sys.path.insert(0, f"{os.path.dirname(os.path.dirname(os.path.abspath(__file__)))}/python")
import lapin  # noqa: E402

WINDOW = 1000


class Alarm(Exception):
    """What a signal's handler raises."""


class Alarms:
    """Exceptions at random places of what runs while they are on, some milliseconds apart."""

    def __init__(self, draw):
        self.draw, self.is_on, self.count = draw, False, 0
        signal.signal(signal.SIGALRM, self.ring)

    def ring(self, *_):
        if self.is_on:
            self.is_on, self.count = False, self.count + 1
            raise Alarm

    def on(self):
        self.is_on = True
        signal.setitimer(signal.ITIMER_REAL, self.draw.expovariate(20) + 0.0005)

    def off(self):
        self.is_on = False
        signal.setitimer(signal.ITIMER_REAL, 0)


def is_lost_one(number):
    return number % 10 == 9


def told(confirm):
    """A word for what a publish was told."""
    try:
        outcome = confirm.poll()
    except lapin.CallFailed as error:
        return error.cause
    if outcome is None:
        return "pending"
    return outcome.kind if outcome.returned is None else f"returned {int(outcome.returned.body)}"


def publish(channel, waiting, numbers):
    number = numbers[-1]
    key = "nobody" if is_lost_one(number) else "alarms"
    waiting[number] = None
    numbers.pop()
    waiting[number] = channel.publish("", key, b"%d" % number, mandatory=is_lost_one(number) or number % 2 == 0)


def step(connection, channel, waiting, numbers, fate, cut_at):
    """Publishes up to a window, waits, and notes what was told. Whether the connection is lost."""
    try:
        while numbers and len(waiting) < WINDOW:
            publish(channel, waiting, numbers)
            if numbers and numbers[-1] == cut_at:
                connection._wire.socket.shutdown(numbers[-1] % 3)
        connection.turn(10)
        for number, confirm in list(waiting.items()):
            words = "unmade" if confirm is None else told(confirm)
            if words != "pending":
                fate[number] = words
                del waiting[number]
        return False
    except lapin.Error:
        return True


def one_connection(url, numbers, fate, alarms, cut_at):
    """Publishes numbers until there are none, the connection is cut, or an exception lost it."""
    waiting, is_lost, connection = {}, False, lapin.connect(url)
    channel = connection.channel(confirms=True)
    while (numbers or waiting) and not is_lost:
        try:
            alarms.on()
            is_lost = step(connection, channel, waiting, numbers, fate, cut_at)
            alarms.off()
        except Alarm:
            pass
    for number, confirm in waiting.items():
        fate[number] = "unmade" if confirm is None else told(confirm)
    connection.close(1)


def main(url, publishes=1_000_000, cuts=100):
    alarms, start, publishes, cuts = Alarms(random.Random(17)), time.monotonic(), int(publishes), int(cuts)
    fate, numbers, was_cut, connections = {}, list(range(publishes - 1, -1, -1)), 0, 0
    with lapin.connect(url) as watcher:
        channel = watcher.channel()
        channel.queue_declare("alarms")
        channel.queue_purge("alarms")
    while numbers:
        cut_at = numbers[-1] + alarms.draw.randrange(1, 2000) if was_cut < cuts else -1
        was_cut, connections = was_cut + (cut_at >= 0), connections + 1
        one_connection(url, numbers, fate, alarms, cut_at)
    time.sleep(2)
    there = collections.Counter()
    with lapin.connect(url) as watcher:
        consumer = watcher.channel().consume("alarms", no_ack=True)
        try:
            while (message := consumer.next(5)) is not None:
                there[int(message.body)] += 1
        except lapin.Timeout:
            pass
        watcher.channel().queue_delete("alarms")
    wrong = [number for number, words in fate.items() if words == "ack" and (is_lost_one(number) or not there[number])
             or words.startswith("returned") and words != f"returned {number}" or words.startswith("returned") and not is_lost_one(number)
             or words in ("nack", "pending", "notrequested")]
    kinds = collections.Counter(words.split(" ")[0] for words in fate.values())
    print(f"{publishes} publishes over {connections} connections, {alarms.count} exceptions, {was_cut} cuts: {dict(kinds)}; "
          f"{len(wrong)} outcomes that aren't the message's own {[(it, fate[it]) for it in wrong[:5]]}; {sum(it > 1 for it in there.values())} twice in the "
          f"queue; {len(there)} in it; {time.monotonic() - start:.0f} s")
    return len(wrong) > 0


if __name__ == "__main__":
    sys.exit(main(*sys.argv[1:]))

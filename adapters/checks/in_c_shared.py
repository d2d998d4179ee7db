"""The connection for C that threads share, compiled here, against the scripted broker; and against a RabbitMQ through a relay that cuts."""
import collections
import os
import random
import re
import struct
import subprocess
import threading
import time

import lapin
import scripted
from checks.common import address, rabbit, said, test
from checks.in_c_library import by, program
from checks.schedules import Confirming, in_order, ready, scheduled
from checks.with_celery import Relay
from scripted import Broker, HungUp

SHARED = ("-pthread",)


def shared(name):
    return program(f"shared_{name}", more=SHARED)


def serve(peer, most=20):
    """Plays until the client closes: answers openings, selects, calls and publishes. What it noted."""
    confirming, count = Confirming(peer, random.Random(7)), 0
    while True:
        if count >= most or not ready(peer, 0.002):
            confirming.settle()
            count, most = 0, confirming.chance.randint(1, 40)
        _, channel, payload = peer.frame()
        count += 1
        if struct.unpack(">HH", payload[:4]) == (10, 50):
            peer.send(scripted.method(0, 10, 51))
            return confirming
        assert confirming.answer(channel, struct.unpack(">HH", payload[:4]), payload)


def outcomes(threads, channels, each, window, *more):
    """Has the program publish, and compares each outcome with what the broker said of that body. What the broker noted."""
    noted, made = [], shared("outcomes")

    def script(peer):
        peer.open(frame_max=131072)
        noted.append(serve(peer))
    with Broker(script) as url:
        lines = said(made, *address(url), threads, channels, each, window, *more).splitlines()
    found, [confirming] = dict(line.split(" ", 1) for line in lines), noted
    right = {body.decode(): what for body, what in confirming.said.items()}
    assert len(found) == threads * each and found == right, [(body, it, right.get(body)) for body, it in found.items() if it != right.get(body)][:5]
    assert {"ack", "nack", "returned"} <= set(found.values()) and in_order(confirming.order)
    return confirming


@test
def c_shares_a_channel_among_eight_threads():
    outcomes(8, 1, 400, 20)
    outcomes(8, 1, 60, 1)


@test
def c_shares_a_connection_among_eight_threads_and_channels():
    outcomes(8, 8, 400, 50)
    outcomes(8, 8, 60, 1)
    outcomes(1, 1, 200, 1)


@test
def c_shared_keeps_its_bound_of_confirms():
    assert 1 < outcomes(8, 2, 100, 50, 10).most_open <= 10


@test
def c_shared_withstands_a_hundred_random_schedules():
    counts = scheduled([shared("random")], 0, 100)
    assert all(counts.get(it, 0) > 20 for it in ("pack", "pnack", "preturned", "perror", "cyes", "cno", "m")), counts


def consumed(messages, pause, heartbeat=0):
    """Has the program consume beside publishers; each acknowledgement is of a message that was sent, and comes once. The longest silence."""
    acks, silence, made = [], [0.0], shared("consumers")

    def script(peer):
        peer.open(frame_max=131072, heartbeat=heartbeat)
        chance, last, sent = random.Random(5), time.monotonic(), 0
        is_consuming, published, settled = False, 0, 0
        while True:
            now = time.monotonic()
            if is_consuming and sent < messages:
                many = min(messages - sent, chance.randint(1, 30))
                peer.send(b"".join(scripted.deliver(1, "t", sent + k, b"%d" % (sent + k)) for k in range(1, many + 1)), pieces=chance.choice((0, 50)))
                sent += many
            if published > settled:
                peer.send(scripted.ack(2, published, multiple=1))
                settled = published
            if not ready(peer, 0.2):
                if heartbeat:
                    peer.send(scripted.frame(8, 0, b""))
                continue
            kind, channel, payload = peer.frame(heartbeats=True)
            silence[0], last = max(silence[0], time.monotonic() - last), time.monotonic()
            at = struct.unpack(">HH", payload[:4]) if kind == 1 else None
            if at == (20, 10):
                peer.send(scripted.method(channel, 20, 11, bytes(4)))
            elif at == (85, 10):
                peer.send(scripted.method(channel, 85, 11))
            elif at == (60, 20):
                peer.send(scripted.method(channel, 60, 21, scripted.short_text("t")))
                is_consuming = True
            elif at == (60, 40):
                peer.content(channel)
                published += 1
            elif at == (60, 80):
                assert channel == 1 and payload[12] == 0
                acks.append(struct.unpack(">Q", payload[4:12])[0])
            elif at == (10, 50):
                peer.send(scripted.method(0, 10, 51))
                return
    with Broker(script) as url:
        told = said(made, *address(url), messages, pause)
    assert f"{messages} messages, {messages} and {messages} acks" in told, told
    assert sorted(acks) == list(range(1, messages + 1)), (len(acks), len(set(acks)))
    return silence[0]


@test
def c_shared_consumes_beside_publishers():
    consumed(600, 0)


@test
def c_shared_handler_that_works_long_loses_nothing():
    assert consumed(40, 4000, heartbeat=1) < 1.9


def ending(how, then=lambda peer: None, answers_close=True):
    """What the eight that wait are told, by their numbers, and the last line."""
    made = shared("ends")

    def script(peer):
        peer.open(frame_max=131072)
        peer.declined = []
        for number in (1, 2):
            peer.channel(number, confirms=True)
            peer.consume(number, "ab"[number - 1])
        peer.send(scripted.deliver(2, "b", 1, b"early"))
        try:
            serve_ends(peer, then, answers_close)
        except HungUp:
            pass
    with Broker(script) as url:
        lines = said(made, *address(url), how).splitlines()
    return dict(line.split(": ", 1) for line in lines[:-1]), lines[-1]


def serve_ends(peer, then, answers_close):
    """Answers the publish `last`, the end, and what stands before the eight wait: channels, of which it closes number 3 once, and qos, but on a channel
    that it closed."""
    tag, calls, has_closed, is_closed = 0, 0, False, False
    while True:
        _, channel, payload = peer.frame()
        at = struct.unpack(">HH", payload[:4])
        if at == (60, 40):
            tag += 1
            if peer.content(channel) == b"last":
                peer.send(scripted.ack(channel, tag))
        elif at == (10, 50) and answers_close:
            peer.send(scripted.method(0, 10, 51))
            return
        elif at == (60, 80):
            assert tag == 1, "what was published before is there before"
        elif at == (20, 10):
            peer.send(scripted.method(channel, 20, 11, bytes(4)))
            is_closed = is_closed and channel != 3
            if channel == 3 and not has_closed:
                peer.send(scripted.channel_close(3, 406, "by the broker"))
                has_closed = is_closed = True
        elif at == (60, 10) and not (is_closed and channel == 3):
            peer.send(scripted.method(channel, 60, 11))
        calls += at in ((50, 10), (60, 70))
        if calls == 2:
            calls += 1
            then(peer)


@test
def c_shared_close_ends_all_that_wait():
    told, last = ending("close")
    assert len(told) == 8 and last.startswith("8 told, closed, within its time; ConnectionLost: it was closed"), (told, last)
    assert all("close" in it for it in told.values()), told


@test
def c_shared_loss_is_told_to_all_that_wait():
    def hangs_up(peer):
        raise HungUp

    def closes(peer):
        peer.send(scripted.connection_close(320, "CONNECTION_FORCED - bye"))
        time.sleep(0.1)
        raise HungUp
    for then, words in ((hangs_up, "ConnectionLost: the broker hung up"), (closes, "320 CONNECTION_FORCED - bye")):
        told, last = ending("cut", then)
        assert len(told) == 8 and last.startswith("8 told, not closed, within its time"), (told, last)
        assert all(words in it for it in told.values()), told


@test
def c_shared_wakes_who_waits_for_the_socket():
    told, last = ending("alone", answers_close=False)
    assert last.startswith("1 told, not answered, within its time; ConnectionLost: it was closed, and the broker did not answer"), (told, last)
    assert "this side closes" in told["0"], told


@test
def c_shared_tells_a_forked_process():
    told, last = ending("fork")
    assert len(told) == 8 and last.startswith("8 told, closed"), (told, last)


@test
def c_shared_goes_on_behind_a_cancelled_thread():
    told, last = ending("cancel")
    assert "closed, within its time" in last and len(told) in (7, 8), (told, last)


@test
def c_shared_keeps_its_times_where_the_broker_does_not_read():
    count, made = [], shared("unread")

    def script(peer):
        confirms(peer)
        peer.consume(1, "t")
        peer.send(scripted.method(0, 10, 60, scripted.short_text("low on memory")))
        time.sleep(4)
        while True:
            kind, channel, payload = peer.frame()
            if payload[:4] == b"\x00\x3c\x00\x28":
                assert len(peer.content(channel)) == 50000
                count.append(1)
                peer.send(scripted.ack(1, len(count)))
            elif kind == 1 and payload[:4] == b"\x00\x0a\x00\x32":
                peer.send(scripted.method(0, 10, 51))
                return

    def confirms(peer):
        peer.open(frame_max=131072)
        peer.channel(1, confirms=True)
    with Broker(script) as url:
        told = said(made, *address(url))
        taken, acks = map(int, re.findall(r"\d+", told))
        assert taken == acks == len(count) and taken > 4, (told, len(count))


def drained(channel, queue):
    """What a queue has."""
    found = set()
    while message := channel.get(queue, no_ack=True):
        found.add(message.body.decode())
    return found


def soaked(url, each, cuts, seconds):
    """Eight threads publish so many messages each to one queue of a RabbitMQ, beside two that consume, by one connection. So many connections a relay
    cuts, each within the seconds; the threads go on by another one. What was told of how many publishes, and how many connections there were."""
    made, queue, relay, chance = shared("soak"), "shared-in-c", Relay(*address(url)), random.Random(11)
    told, taken, froms, lives = {}, set(), [0] * 8, 0
    with lapin.connect(url) as connection:
        channel = connection.channel()
        channel.queue_declare(queue, durable=True)
        channel.queue_purge(queue)
        while min(froms) < each:
            words = [made, "127.0.0.1", relay.port, queue, each, *froms]
            if lives < cuts:
                threading.Timer(chance.uniform(0.1, seconds), relay.cut).start()
            done = subprocess.run([str(it) for it in words], stdout=subprocess.PIPE, stderr=subprocess.STDOUT, text=True, timeout=300, check=False)
            lives += 1
            assert done.returncode in (0, 1) and lives < 2 * cuts + 20, (done.returncode, done.stdout[-300:])
            for line in done.stdout.splitlines():
                kind, body, *outcome = line.split(" ", 2)
                if kind == "p":
                    assert body not in told, f"{body} was told twice"
                    told[body] = outcome[0]
                    froms[int(body.split(".")[0])] = int(body.split(".")[1]) + 1
                elif kind == "m":
                    taken.add(body)
        taken |= drained(channel, queue)
        channel.queue_delete(queue)
    for body, outcome in told.items():
        is_lost = body.endswith("9")
        assert outcome in ("error", "returned" if is_lost else "ack"), (body, outcome)
        assert not (outcome == "ack" and body not in taken) and not (is_lost and body in taken), (body, outcome)
    assert len(told) == 8 * each
    return collections.Counter(told.values()), lives


@rabbit
def rabbitmq_and_threads_that_share_a_connection_in_c(url):
    counts, lives = soaked(url, 1500, 5, 0.5)
    assert counts["ack"] > 3000 and counts["returned"] > 300 and lives > 2, (counts, lives)


WATCHED = [c_shares_a_channel_among_eight_threads, c_shares_a_connection_among_eight_threads_and_channels, c_shared_keeps_its_bound_of_confirms,
           c_shared_consumes_beside_publishers, c_shared_close_ends_all_that_wait, c_shared_loss_is_told_to_all_that_wait,
           c_shared_goes_on_behind_a_cancelled_thread]


def has_sanitizer(flag):
    """Whether the compiler has the libraries of an instrument."""
    source = f"{os.path.dirname(program('version'))}/probe.c"
    with open(source, "w", encoding="utf-8") as file:
        file.write("int main(void) { return 0; }\n")
    words = [os.environ.get("CC", "cc"), flag, "-o", f"{source}.out", source]
    is_made = not subprocess.run(words, stderr=subprocess.DEVNULL, check=False).returncode
    return is_made and not subprocess.run([f"{source}.out"], check=False).returncode


@test
def c_shared_is_clean_by_threads():
    if not has_sanitizer("-fsanitize=thread"):
        print("threads: not looked at, since the compiler's library for it isn't here")
        return
    with by(["-fsanitize=thread", "-g"]):
        for it in WATCHED:
            it()
        scheduled([shared("random")], 1000, 25)


@test
def c_shared_is_clean_by_address_and_undefined_behaviour():
    if not has_sanitizer("-fsanitize=address,undefined"):
        print("address and undefined behaviour: not looked at, since the compiler's libraries for it aren't here")
        return
    with by(["-fsanitize=address,undefined", "-fno-sanitize-recover=all"]):
        for it in WATCHED:
            it()
        scheduled([shared("random")], 2000, 25)

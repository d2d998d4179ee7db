"""A connection that many threads use: outcomes, order, callbacks, closes, and brokers that don't read."""
import concurrent.futures
import contextlib
import random
import socket
import struct
import threading
import time

import lapin
import scripted
from checks.common import confirms, fails, rabbit, test, within
from checks.patience import reading_nothing, took
from lapin import threads as shared
from scripted import Broker, HungUp

METHODS = {(10, 50): "close", (50, 10): "declare", (60, 40): "publish", (60, 80): "ack", (60, 90): "reject", (20, 10): "open", (20, 40): "leave",
           (85, 10): "select", (60, 20): "consume", (60, 70): "get", (60, 30): "cancel"}


def together(*calls):
    """Calls each in a thread of its own; what one raises is raised here."""
    with concurrent.futures.ThreadPoolExecutor(len(calls)) as pool:
        for done in [pool.submit(it) for it in calls]:
            done.result(60)


class Answering:
    """A broker that answers every call, and settles publishes by their content: those whose body begins with `n` by a nack, `r` comes back first;
    the others by an ack, of several at once where none of these is between. `got` has what came, frame by frame."""

    def __init__(self, each=1, most=None, heartbeat=0):
        self.each, self.most, self.heartbeat, self.got, self.tags, self.owed = each, most, heartbeat, [], {}, {}

    def __call__(self, peer):
        with contextlib.suppress(HungUp, ConnectionError):
            peer.open(frame_max=131072, heartbeat=self.heartbeat)
            self.tags, self.owed, count = {}, {}, 0
            while self.step(peer) and (self.most is None or count < self.most):
                count += 1

    def step(self, peer):
        kind, channel, payload = peer.frame()
        assert kind == 1, f"a frame of type {kind} within no content"
        name = METHODS[struct.unpack(">HH", payload[:4])]
        if name == "publish":
            body = peer.content(channel)
            self.got.append((channel, name, body))
            self.settle(peer, channel, body)
        else:
            self.got.append((channel, name, payload[4:]))
            answer = {"declare": (50, 11, scripted.short_text("q") + bytes(8)), "open": (20, 11, scripted.long_text(b"")), "leave": (20, 41, b""),
                      "select": (85, 11, b""), "get": (60, 72, scripted.short_text("")), "close": (10, 51, b"")}.get(name)
            if name in ("consume", "cancel"):  # its tag, behind the ticket and the queue of a consume
                at = 7 + payload[6] if name == "consume" else 4
                answer = (60, 21 if name == "consume" else 31, payload[at:at + 1 + payload[at]])
            if answer:
                peer.send(scripted.method(channel, *answer))
        return name != "close"

    def settle(self, peer, channel, body):
        tag = self.tags[channel] = self.tags.get(channel, 0) + 1
        if body[:1] == b"n":
            peer.send(scripted.nack(channel, tag))
        elif body[:1] == b"r":
            peer.send(scripted.returned(channel, "q", body) + scripted.ack(channel, tag))
        elif self.each == 1:
            peer.send(scripted.ack(channel, tag))
        else:
            self.owed[channel] = self.owed.get(channel, 0) + 1
            if self.owed[channel] % self.each == 0:
                peer.send(scripted.ack(channel, tag, multiple=1))


def told(confirm, timeout=20):
    """The words of what a publish is told: its outcome, what came back with it, or its error."""
    try:
        outcome = confirm.wait(timeout)
    except lapin.Error as error:
        return type(error).__name__
    return outcome.kind if outcome.returned is None else outcome.returned.body


@test
def each_confirm_is_its_own_of_eight_threads():
    for channels in (1, 8):
        broker = Answering()
        with within(60), Broker(broker) as url, lapin.connect(url, threads=True) as connection:
            opened = [connection.channel(confirms=True) for _ in range(channels)]

            def work(mine):
                draw, channel = random.Random(mine), opened[mine % channels]
                for turn in range(60):
                    bodies = [draw.choice((b"a", b"a", b"n", b"r")) + b"%d.%d.%d" % (mine, turn, at) for at in range(draw.choice((1, 7, 30)))]
                    given = [channel.publish("", "q", body, mandatory=body[:1] == b"r") for body in bodies]
                    for body, confirm in zip(bodies, given):
                        wanted = {b"a": "ack", b"n": "nack", b"r": body}[body[:1]]
                        assert told(confirm) == wanted, (body, told(confirm))
            together(*(lambda mine=mine: work(mine) for mine in range(8)))
            assert all(it.wait_for_confirms(5) == [] for it in opened)


@test
def consumers_beside_publishers_share_a_connection():
    count, settled = 2000, []

    def script(peer):
        confirms(peer, frame_max=131072)
        peer.channel(2)
        peer.consume(2, "t")
        sent = tag = 0
        while len(settled) < count or tag < count:
            for _ in range(min(50, count - sent)):
                sent += 1
                peer.send(scripted.deliver(2, "t", sent, b"%d" % sent))
            kind, channel, payload = peer.frame()
            if channel == 2:
                assert payload[:4] == b"\x00\x3c\x00\x50" and payload[12] == 0
                settled.append(struct.unpack(">Q", payload[4:12])[0])
            else:
                peer.content(1)
                tag += 1
                peer.send(scripted.ack(1, tag))
        peer.close()
    seen = []
    with within(60), Broker(script) as url, lapin.connect(url, threads=True) as connection:
        channel, reader = connection.channel(confirms=True), connection.channel()
        consumer = reader.consume("q", tag="t")

        def read():
            with contextlib.suppress(lapin.Timeout):
                while len(seen) < count:
                    message = consumer.next(1)
                    seen.append((int(message.body), message.delivery_tag))
                    assert message.ack() and not message.ack()

        def publish():
            for _ in range(count // 100):
                assert all([it.wait(20) for it in [channel.publish("", "q", b"x") for _ in range(25)]])
        together(*[read] * 4, *[publish] * 4)
    assert sorted(seen) == [(it, it) for it in range(1, count + 1)] and sorted(settled) == list(range(1, count + 1))


@test
def a_handler_of_four_seconds_loses_nothing():
    beats, settled = [], []

    def script(peer):
        peer.open(heartbeat=1)
        peer.channel(1)
        peer.consume(1, "t")
        peer.send(scripted.deliver(1, "t", 1, b"m"))
        peer.sock.settimeout(1.9)  # a heartbeat comes meanwhile
        while not settled:
            kind, channel, payload = peer.frame(heartbeats=True)
            if kind == 8:
                beats.append(time.monotonic())
                peer.send(scripted.frame(8, 0, b""))
            else:
                settled.append(payload)
        peer.close()
    seen = []

    def work(message):
        time.sleep(4)
        seen.append((threading.current_thread().name, message.ack()))
        connection.stop()
    with within(30), Broker(script) as url, lapin.connect(url, heartbeat=1, threads=True) as connection:
        connection.channel().consume("q", work, tag="t")
        connection.run(20)
        assert seen == [("lapin callbacks", True)] and len(beats) >= 3, (seen, beats)
        assert connection.is_open
    assert settled == [b"\x00\x3c\x00\x50" + struct.pack(">QB", 1, 0)]


@test
def the_order_of_calls_of_each_thread_is_kept():
    for channels in (1, 4):
        broker = Answering(each=1)

        def script(peer, broker=broker):
            peer.open(frame_max=131072)
            for _ in range(3 * channels):  # open, select, consume
                broker.step(peer)
                if broker.got[-1][1] == "consume":
                    number = broker.got[-1][0]
                    peer.send(b"".join(scripted.deliver(number, f"t{number}", tag, b"m") for tag in range(1, 401)))
            while broker.step(peer):
                pass
        with within(60), Broker(script) as url, lapin.connect(url, threads=True) as connection:
            opened = []
            for number in range(1, channels + 1):
                channel = connection.channel(confirms=True)
                opened.append((channel, channel.consume("q", tag=f"t{number}")))

            def work(mine):
                channel, consumer = opened[mine % channels]
                for turn in range(60):
                    message = consumer.next(5)
                    channel.publish("", "q", b"%d.%d.%d" % (mine, turn, message.delivery_tag))
                    assert message.ack()
                    if turn % 20 == 0:
                        channel.queue_declare(f"{mine}.{turn}")
            together(*(lambda mine=mine: work(mine) for mine in range(4)))
        last, came = {}, set()
        for channel, name, octets in broker.got:
            if name == "publish":
                mine, turn, tag = map(int, octets.split(b"."))
                assert turn == last.get(mine, -1) + 1, (octets, last)
                last[mine] = turn
                came.add((channel, tag))
            elif name == "ack":
                assert (channel, struct.unpack(">Q", octets[:8])[0]) in came, "a message was acknowledged before what came of it was published"
            elif name == "declare":
                mine, turn = map(int, octets[3:3 + octets[2]].split(b"."))
                assert last[mine] == turn, "a call left before the publish that it stands behind"
        assert last == {mine: 59 for mine in range(4)}


@test
def a_close_of_another_thread_ends_eight_waits():
    def script(peer):
        confirms(peer)
        peer.consume(1, "t")
        assert peer.expect_publish(1)[1] == b"x"
        peer.expect(1, 50, 10)
        peer.close()
    with within(30), Broker(script) as url:
        connection, ended = lapin.connect(url, threads=True), []
        channel = connection.channel(confirms=True)
        consumer = channel.consume("q", tag="t")
        confirm = channel.publish("", "q", b"x")

        def waits(call):
            try:
                ended.append(("given", call()))
            except lapin.Error as error:
                ended.append(type(error).__name__)
        calls = [lambda: confirm.wait(20), lambda: consumer.next(20)] * 2 + [lambda: connection.run(20), lambda: channel.wait_for_confirms(20),
                                                                            lambda: channel.queue_declare("q"), lambda: connection.turn(20)]
        threads = [threading.Thread(target=waits, args=(it,)) for it in calls]
        for it in threads:
            it.start()
        time.sleep(0.5)
        closers = [threading.Thread(target=connection.close) for _ in range(2)]
        assert took(lambda: [[it.start() for it in closers], [it.join(20) for it in closers + threads]]) < 5
        assert len(ended) == 8 and not connection.is_open and not connection._mover.is_alive(), ended
        fails(lapin.CallFailed, confirm.poll)
        for call in (connection.channel, lambda: channel.publish("", "q", b"x"), lambda: channel.queue_declare("q"), connection.flush,
                     lambda: connection.turn(1)):
            fails(lapin.Error, call)
        connection.close()


@test
def threads_and_a_broker_that_reads_nothing_keep_each_time():
    ends, options = threading.Event(), lapin.Threads(most_waiting=300_000, patience=0.5)
    with within(60), Broker(reading_nothing(ends), room=4096) as url:
        connection = lapin.connect(url, heartbeat=1, threads=options)
        connection._wire.socket.setsockopt(socket.SOL_SOCKET, socket.SO_SNDBUF, 4096)
        channel, given = connection.channel(confirms=True), []
        consumer = None
        try:
            def publish():
                for _ in range(100):
                    given.append(channel.publish("", "q", bytes(10_000)))
            assert took(lambda: together(*[lambda: fails(lapin.Timeout, publish)] * 4)) < 10
            assert 25 <= len(given) < 80 and connection._waits() <= 300_000 + 4 * 10_100, (len(given), connection._waits())
            patience, lapin.connection.PATIENCE = lapin.connection.PATIENCE, 1.0
            for call in (lambda: given[-1].wait(0.3), lambda: connection.flush(0.3), lambda: channel.queue_declare("q"), lambda: channel.get("q"),
                         lambda: channel.wait_for_confirms(0.3), connection.channel, lambda: channel.consume("q")):
                assert took(lambda: fails(lapin.Timeout, call)) < 3
            lapin.connection.PATIENCE = patience
            assert connection.is_blocked and connection.is_open and took(lambda: connection.run(0.3)) < 3 and consumer is None
            assert took(lambda: connection.close(0.3)) < 3
            for it in given:
                fails(lapin.CallFailed, it.poll)
        finally:
            ends.set()


@test
def callbacks_call_what_they_like():
    broker, seen, raised, done = Answering(each=1), [], [], threading.Event()

    def script(peer):
        peer.open(frame_max=131072)
        for _ in range(3):
            broker.step(peer)
        peer.send(b"".join(scripted.deliver(1, "t", tag, b"%d" % tag) for tag in range(1, 21)))
        peer.send(scripted.method(0, 10, 60, scripted.short_text("low")))
        while broker.step(peer):
            pass
    pool = lapin.Threads(executor=concurrent.futures.ThreadPoolExecutor(4, "mine"))
    for options, names in ((True, {"lapin callbacks"}), (pool, {f"mine_{at}" for at in range(4)})):
        seen.clear()
        done.clear()
        broker.tags.clear()

        def work(message):
            if message.body == b"5":
                raise ValueError("of a callback")
            outcome = channel.publish("", "q", b"of " + message.body).wait(5)
            channel.queue_declare("q")
            seen.append((message.body, str(outcome), message.ack(), threading.current_thread().name))
            if len(seen) == 19:
                consumer.cancel(5)
                done.set()
        hook, threading.excepthook = threading.excepthook, lambda told: raised.append(str(told.exc_value))
        try:
            with within(30), Broker(script) as url, lapin.connect(url, threads=options) as connection:
                blocked = []
                connection.on_blocked = lambda it: blocked.append((it, threading.current_thread().name))
                channel = connection.channel(confirms=True)
                consumer = channel.consume("q", work, tag="t")
                connection.run(20)
                assert done.wait(20) and not consumer.is_active, (seen, raised)
                assert {it[1:3] for it in seen} == {("ack", True)} and {it[3] for it in seen} <= names, seen
                assert sorted(int(it[0]) for it in seen) == [it for it in range(1, 21) if it != 5]
                assert names != {"lapin callbacks"} or [int(it[0]) for it in seen] == [it for it in range(1, 21) if it != 5]
                assert [it[0] for it in blocked] == [True] and blocked[0][1] in names
        finally:
            threading.excepthook = hook
    assert raised == ["of a callback"] * 2, raised


@test
def notices_are_told_in_the_thread_of_callbacks():
    def script(peer):
        peer.open()
        peer.channel(1)
        peer.channel(2)
        peer.consume(2, "t")
        assert peer.expect_publish(1)[1] == b"back"
        peer.send(scripted.returned(1, "q", b"back"))
        peer.expect(1, 50, 10)
        peer.send(scripted.channel_close(1, 404, "NOT_FOUND") + scripted.method(2, 60, 30, scripted.short_text("t") + b"\x01"))
        peer.expect(1, 20, 41)
        peer.expect(2, 50, 10)
        peer.send(scripted.connection_close(320, "CONNECTION_FORCED"))
        peer.expect(0, 10, 51)
    told_here, ends = [], threading.Event()

    def tell(words):
        return lambda it: (told_here.append((words(it), threading.current_thread().name)), words(it) == 320 and ends.set())
    with within(30), Broker(script) as url:
        connection = lapin.connect(url, threads=True)
        one, two = connection.channel(), connection.channel()
        consumer = two.consume("q", tag="t")
        connection.on_close = one.on_close = tell(lambda error: error.reason.code)
        one.on_return, consumer.on_end = tell(lambda it: it.body), tell(lambda it: it.tag)
        assert one.publish("", "q", b"back", mandatory=True).wait(5) == "notrequested"
        fails(lapin.CallFailed, lambda: one.queue_declare("none", passive=True), code=404)
        assert consumer.next(5) is None and not one.is_open
        fails(lapin.CallFailed, lambda: two.queue_declare("q"), code=320)
        assert ends.wait(5)
        connection.close()
    assert len(told_here) == 4 and {it[0] for it in told_here} == {b"back", "t", 404, 320}, told_here
    assert told_here[-1][0] == 320 and {it[1] for it in told_here} == {"lapin callbacks"}


@test
def threads_settle_by_tags():
    settled = []

    def script(peer):
        peer.open()
        peer.channel(1)
        peer.consume(1, "t")
        peer.send(b"".join(scripted.deliver(1, "t", tag, b"m") for tag in range(1, 201)))
        while sum(1 for _ in settled) < 200:
            payload = peer.frame()[2]
            assert payload[:4] == b"\x00\x3c\x00\x50"
            settled.append(struct.unpack(">Q", payload[4:12])[0])
        peer.close()
    with within(30), Broker(script) as url, lapin.connect(url, threads=True) as connection:
        channel = connection.channel(by_tag=True)
        consumer = channel.consume("q", tag="t")

        def work():
            for _ in range(50):
                tag = consumer.next(5).delivery_tag
                assert channel.ack(tag) and not channel.ack(tag)
        together(*[work] * 4)
        assert not channel._given
        connection.flush(5)
    assert sorted(settled) == list(range(1, 201))


@test
def one_message_wakes_one_of_four_hundred():
    def script(peer):
        peer.open(frame_max=131072)
        for number in range(1, 401):
            peer.channel(number)
            peer.consume(number, "t")
        peer.expect(7, 50, 10)
        peer.send(scripted.deliver(7, "t", 1, b"m") + scripted.method(7, 50, 11, scripted.short_text("q") + bytes(8)))
        peer.close()
    looked, given = [], []
    with within(120), Broker(script) as url:
        connection = lapin.connect(url, threads=True)
        channels = [connection.channel() for _ in range(1)]
        consumers = [channels[0].consume("q", tag="t")]
        for _ in range(399):
            channels.append(connection.channel())
            consumers.append(channels[-1].consume("q", tag="t"))

        def wait(consumer):
            try:
                given.append(consumer.next(60))
            except lapin.Error as error:
                given.append(error)
        before, shared.Consumer._next_one = shared.Consumer._next_one, lambda self: looked.append(self) or before(self)
        threads = [threading.Thread(target=wait, args=(it,)) for it in consumers]
        for it in threads:
            it.start()
        while sum(len(it._bells) for it in consumers) < 400:
            time.sleep(0.05)
        del looked[:]
        try:
            channels[6].queue_declare("q")
            time.sleep(0.5)
            assert looked == [consumers[6]] and [it.body for it in given] == [b"m"], len(looked)
        finally:
            shared.Consumer._next_one = before
            connection.close()
            for it in threads:
                it.join(20)
        assert len(given) == 400


@rabbit
def rabbitmq_and_eight_threads(url):
    with within(120), lapin.connect(url, heartbeat=2, threads=True) as connection:
        channel, seen, lock = connection.channel(confirms=True), set(), threading.Lock()
        queue = channel.queue_declare(exclusive=True).name
        reader = connection.channel(prefetch=50)

        def work(message):
            assert message.ack()
            with lock:
                seen.add(message.body)

        def publish(mine, at):
            wanted = {}
            for turn in range(1000):
                body = b"%d.%d" % (mine, turn)
                key = "nobody" if turn % 10 == 9 else queue
                wanted[body] = (key, at.publish("", key, body, mandatory=turn % 2 == 1))
                if turn % 100 == 99:
                    for sent, (to, confirm) in wanted.items():
                        assert told(confirm) == (sent if to == "nobody" else "ack"), (sent, told(confirm))
                    wanted = {}
        reader.consume(queue, work)
        own = [connection.channel(confirms=True) for _ in range(4)]
        together(*(lambda mine=mine: publish(mine, own[mine] if mine < 4 else channel) for mine in range(8)))
        until = time.monotonic() + 20
        while len(seen) < 7200 and time.monotonic() < until:
            time.sleep(0.05)
        assert len(seen) == 7200, len(seen)

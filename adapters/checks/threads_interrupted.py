"""What falls on a connection that many threads use: cuts and alarms at random places, an exception at each line, forks, steps within steps."""
import contextlib
import os
import random
import signal
import struct
import sys
import threading
import time

import lapin
import scripted
from checks.common import Alarm, alarm, confirms, fails, test, within
from checks.patience import took
from checks.threads import Answering, together, told
from lapin import _shared, _waiting
from lapin import threads as shared
from scripted import Broker


def published(channel, bodies, given):
    """Publishes what it can."""
    with contextlib.suppress(lapin.Error):
        for at, body in enumerate(bodies):
            given.append((body, channel.publish("", "q", body)))
            if at % 20 == 19:
                given[-1][1].wait(20)


@test
def cuts_at_random_places_tell_threads_no_lie():
    draw, acked = random.Random(41), 0
    for turn in range(40):
        broker, given = Answering(each=draw.choice((1, 5)), most=draw.randrange(20, 600)), []
        with within(60), Broker(broker) as url:
            connection = lapin.connect(url, threads=True)
            try:
                channels = [connection.channel(confirms=True) for _ in range(4)]
                together(*(lambda mine=mine: published(channels[mine], [b"%d.%d" % (mine, at) for at in range(200)], given) for mine in range(4)))
            finally:
                stored = {body for _, name, body in broker.got if name == "publish"}
                outcomes = [(body, told(it)) for body, it in given]
                connection.close(1)
        lies = [body for body, words in outcomes if words == "ack" and body not in stored]
        assert not lies and {words for _, words in outcomes} <= {"ack", "CallFailed"}, lies
        acked += sum(words == "ack" for _, words in outcomes)
    assert acked > 1000, acked


@test
def alarms_in_one_thread_lose_nothing_of_others():
    draw, broker, given, is_on = random.Random(7), Answering(each=1), [], [False]

    def ring(*_):
        if is_on[0]:
            is_on[0] = False
            raise Alarm
    with within(120), Broker(broker) as url, lapin.connect(url, threads=True) as connection:
        channel, mine, rung = connection.channel(confirms=True), [], 0
        consumer = channel.consume("q", tag="t")
        ends, four = threading.Event(), [[] for _ in range(4)]

        def publish(at):
            count = 0
            while not ends.is_set():
                count += 1
                four[at].append((b"%d.%d" % (at, count), channel.publish("", "q", b"%d.%d" % (at, count))))
                if count % 20 == 0:
                    four[at][-1][1].wait(20)
        threads = [threading.Thread(target=publish, args=(at,)) for at in range(4)]
        for it in threads:
            it.start()
        before = signal.signal(signal.SIGALRM, ring)
        try:
            for turn in range(600):
                try:
                    is_on[0] = True
                    signal.setitimer(signal.ITIMER_REAL, 0.00005 + draw.random() * 0.004)
                    for at in range(1000):
                        body = b"%s%d.%d" % (draw.choice((b"m", b"n", b"r")), turn, at)
                        mine.append((body, channel.publish("", "q", body, mandatory=body[:1] == b"r")))
                        mine[-1][1].wait(5)
                        if at % 5 == 0:
                            channel.queue_declare("q")
                            connection.flush(5)
                            with contextlib.suppress(lapin.Timeout):
                                consumer.next(0.001)
                except Alarm:
                    rung += 1
        finally:
            is_on[0] = False
            signal.setitimer(signal.ITIMER_REAL, 0)
            signal.signal(signal.SIGALRM, before)
            ends.set()
            for it in threads:
                it.join(30)
        signal.alarm(60)
        assert connection.is_open, connection._why
        wanted = {b"n": "nack"}
        for body, confirm in [*mine, *(it for listed in four for it in listed)]:
            assert told(confirm) == (body if body[:1] == b"r" else wanted.get(body[:1], "ack")), (body, told(confirm))
        came = [body for _, name, body in broker.got if name == "publish"]
        assert {body for body, _ in mine} <= set(came) and len(came) == len(set(came)) and rung > 400, rung
        assert channel.wait_for_confirms(5) is not None and not channel._confirms.open and connection._lock.acquire(False)
        connection._lock.release()


class AtLine:
    """Raises Alarm before the so manieth line of the package that the thread runs while it stands. CPython looks for signals behind calls and at the
    ends of loops, never between a `with` or a `try` and what it guards; a trace is told of these places too, so they are passed over."""
    FILES = {it.__file__ for it in (shared, _shared, _waiting, lapin._core, lapin._confirms)}

    def __init__(self, count):
        self.left, self.is_rung = count, False

    def __enter__(self):
        sys.settrace(self.called)
        return self

    def __exit__(self, kind, *_):
        sys.settrace(None)
        return kind is Alarm

    def called(self, frame, *_):
        return self.line if frame.f_code.co_filename in self.FILES else None

    def line(self, frame, event, _):
        if event == "line" and not is_with(frame.f_code.co_filename, frame.f_lineno):
            self.left -= 1
            if self.left == 0:
                self.is_rung = True
                raise Alarm
        return self.line


LINES = {}
for path in AtLine.FILES:
    with open(path, encoding="utf-8") as opened:
        LINES[path] = [it.strip() for it in opened]


def is_with(path, number):
    """Whether a line begins a `with` or a `try`, or ends what one guards."""
    return LINES[path][number - 1].startswith(("with ", "try:", "finally:", "session._thread = 0"))


@test
def an_exception_at_each_line_leaves_all_as_it_was():
    broker, rung = Answering(each=1), 0

    def script(peer):
        peer.open(frame_max=131072)
        for _ in range(3):
            broker.step(peer)
        peer.send(b"".join(scripted.deliver(1, "t", tag, b"m") for tag in range(1, 2001)))
        while broker.step(peer):
            pass

    def one(channel, consumer, bodies, count):
        bodies.append(b"r%d" % count if count % 2 else b"m%d" % count)
        confirm = channel.publish("", "q", bodies[-1], mandatory=count % 2 == 1)
        confirm.wait(5)
        consumer.next(5).ack()
        channel.queue_declare("q")
        channel.get("q")
        connection.flush(5)
        connection.turn(0)
        return channel.is_open and confirm.poll()
    with within(120), Broker(script) as url, lapin.connect(url, threads=True) as connection:
        channel = connection.channel(confirms=True)
        consumer, bodies = channel.consume("q", tag="t"), []
        for count in range(1, 1000):
            with AtLine(count) as at:
                one(channel, consumer, bodies, count)
            beside = []
            together(lambda: beside.append(told(channel.publish("", "q", b"beside%d" % count), 5)))
            own = told(channel.publish("", "q", b"own%d" % count), 5)
            assert beside == [own] == ["ack"] and connection.is_open, (count, beside, own)
            rung += at.is_rung
            if not at.is_rung:
                break
        assert 100 < rung < 999 and not connection._session._thread, rung
        channel.wait_for_confirms(5)
        confirms = channel._confirms
        left = confirms.open, confirms._says, connection._listeners, connection._turners, consumer._bells, connection._open_requests
        assert not any(left), left
    came = [body for _, name, body in broker.got if name == "publish"]
    assert len(came) == len(set(came))


@test
def what_a_call_brings_that_an_alarm_ended_goes_back():
    def script(peer):
        confirms(peer)
        peer.expect(1, 60, 70)
        peer.expect(1, 60, 20)
        time.sleep(0.5)
        got = struct.pack(">QB", 1, 0) + scripted.short_text("") + scripted.short_text("q") + bytes(4)
        peer.send(scripted.method(1, 60, 71, got) + scripted.content(1, b"m"))
        peer.send(scripted.method(1, 60, 21, scripted.short_text("t")) + scripted.deliver(1, "t", 2, b"m"))
        found = sorted(peer.frame()[2] for _ in range(3))
        assert found == [b"\x00\x3c\x00\x1e\x01t\x00", *(b"\x00\x3c\x00\x5a" + struct.pack(">QB", tag, 1) for tag in (1, 2))], found
        peer.send(scripted.method(1, 60, 31, scripted.short_text("t")))
        peer.declare(1, "q")
        peer.close()
    with within(30), Broker(script) as url, lapin.connect(url, threads=True) as connection:
        channel = connection.channel(confirms=True)
        for call in (lambda: channel.get("q"), lambda: channel.consume("q", tag="t")):
            with alarm(0.1):
                call()
                raise AssertionError("no exception came")
        time.sleep(1)
        assert channel.queue_declare("q").name == "q" and not connection._consumers


@test
def a_step_within_a_step_is_refused():
    with within(30), Broker(Answering()) as url, lapin.connect(url, threads=True) as connection:
        channel = connection.channel(confirms=True)
        for call in (lambda: channel.publish("", "q", b"x"), connection.channel, lambda: connection.turn(1), lambda: channel.is_open,
                     connection.stop):
            assert "within its own call" in str(fails(RuntimeError, lambda: connection._step(call)))
        assert channel.publish("", "q", b"x").wait(5)
        connection.move_here()
        for wrong in (0.5, "yes", None):
            fails(TypeError, lambda: lapin.connect(url, threads=wrong))
        fails(ValueError, lambda: lapin.Threads(most_waiting=0))


@test
def a_forked_process_is_refused_a_connection_of_threads():
    def child():
        calls = (lambda: channel.publish("", "q", b"child"), connection.channel, connection.flush, confirm.wait, connection.move_here,
                 lambda: consumer.next(1), lambda: connection.is_open)
        assert took(lambda: [fails(RuntimeError, call) for call in calls]) < 5
        connection.close()
    with within(30), Broker(Answering()) as url, lapin.connect(url, threads=True) as connection:
        channel = connection.channel(confirms=True)
        consumer, ends = channel.consume("q", tag="t"), threading.Event()

        def publish():
            while not ends.is_set():
                channel.publish("", "q", b"parent").wait(5)
        thread = threading.Thread(target=publish)
        thread.start()
        try:
            for _ in range(20):  # the lock may stand as it was
                confirm = channel.publish("", "q", b"x")
                process = os.fork()
                if process == 0:
                    try:
                        confirm._found = None
                        child()
                        os._exit(0)
                    finally:
                        os._exit(1)
                assert os.waitpid(process, 0)[1] == 0, "the child"
        finally:
            ends.set()
            thread.join(10)
        assert channel.publish("", "q", b"parent").wait(5)

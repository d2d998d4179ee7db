"""What a program does around a connection: exceptions of signal handlers, second threads, forked processes, many open files."""
import os
import random
import signal
import socket
import threading
import time

import lapin
import scripted
from checks.common import Alarm, alarm, alarmed, confirms, fails, test
from lapin import _library
from scripted import Broker, HungUp


def outcome(confirm):
    """The words of what a publish is told: its outcome or its error."""
    try:
        return str(confirm.wait(5))
    except lapin.Error as error:
        return f"{type(error).__name__} {error}"


@test
def an_exception_while_publishes_leave_loses_none():
    reads, got = threading.Event(), []

    def script(peer):
        confirms(peer)
        assert reads.wait(30)
        peer.acks(1, got)
    with Broker(script, room=4096) as url, lapin.connect(url, heartbeat=0) as connection:
        connection._wire.socket.setsockopt(socket.SOL_SOCKET, socket.SO_SNDBUF, 4096)
        channel, given = connection.channel(confirms=True), []
        while not connection._is_lost and len(given) < 500:
            with alarm(0.2):
                given.append(channel.publish("", "q", b"%08d" % len(given) + bytes(4000)))
                connection.flush()
                continue
            break
        reads.set()
        given += [channel.publish("", "q", b"%08d" % (len(given) + more)) for more in range(10)]
        assert {outcome(it) for it in given} == {"ack"}
        assert [body[:8] for body in got] == [b"%08d" % number for number in range(len(given))]


def interrupted(url, draw, start, told):
    """A connection whose calls alarms interrupt at random places; what each of its publishes was told in the end."""
    given, is_on = {}, [False]

    def ring(*_):
        if is_on[0]:
            is_on[0] = False
            raise Alarm
    before = signal.signal(signal.SIGALRM, ring)
    connection = lapin.connect(url)
    channel, number = connection.channel(confirms=True), start
    for _ in range(20):
        try:
            is_on[0] = True
            signal.setitimer(signal.ITIMER_REAL, draw.random() * 0.02)
            for number in range(number + 1, number + 3000):
                given[number] = channel.publish("", "q", b"%09d" % number + bytes(draw.randrange(300)), mandatory=number % 2 == 0)
                if number % 7 == 0:
                    connection.flush()
                if number % 50 == 0:
                    connection.turn(0)
                    given[draw.randrange(start + 1, number + 1)].poll()
        except (Alarm, KeyError):
            pass
        except lapin.Error:
            break
    is_on[0] = False
    signal.setitimer(signal.ITIMER_REAL, 0)
    signal.signal(signal.SIGALRM, before)
    told.update((number, outcome(it)) for number, it in given.items())
    connection.close(1)
    return number


@test
def exceptions_at_random_places_tell_no_lie():
    got, told, draw, number = [], {}, random.Random(29), 0

    def script(peer):
        mine = []
        try:
            confirms(peer, frame_max=131072)
            peer.acks(1, mine, each=3)
        except (HungUp, ConnectionError):
            pass
        finally:
            got.extend(mine)
    with Broker(script, many=True) as url:
        for _ in range(80):
            number = interrupted(url, draw, number, told)
    stored, acked = {int(body[:9]) for body in got}, {number for number, words in told.items() if words == "ack"}
    assert len(got) == len(stored) and len(acked) > 500, (len(got), len(stored), len(acked))
    assert acked <= stored, f"acked and not there: {sorted(acked - stored)[:5]} of {len(acked)}"
    assert not [words for words in told.values() if words.startswith("nack") or "returned" in words]


@test
def an_exception_while_one_waits_leaves_all_as_it_was():
    def script(peer):
        confirms(peer)
        peer.consume(1, "t")
        time.sleep(0.3)
        peer.send(scripted.deliver(1, "t", 1, b"first"))
        assert peer.expect_publish(1)[1] == b"x"
        peer.send(scripted.ack(1, 1))
        peer.close()
    with Broker(script) as url, lapin.connect(url) as connection:
        channel, seen = connection.channel(confirms=True), []
        channel.consume("q", seen.append)
        with alarm(0.1):
            connection.run(5)
            raise AssertionError("no exception came")
        connection.run(0.5)
        assert [message.body for message in seen] == [b"first"] and channel.publish("", "q", b"x").wait(5)


@test
def a_second_thread_is_refused():
    def script(peer):
        confirms(peer)
        assert peer.expect_publish(1)[1] == b"mine"
        peer.send(scripted.ack(1, 1))
        assert peer.expect_publish(1)[1] == b"moved"
        peer.send(scripted.ack(1, 2))
        peer.close()

    def run(call):
        thread = threading.Thread(target=call)
        thread.start()
        thread.join(30)
    with Broker(script) as url, lapin.connect(url) as connection:
        channel, told = connection.channel(confirms=True), []
        mine = channel.publish("", "q", b"mine")
        calls = (lambda: channel.publish("", "q", b"other"), mine.poll, mine.wait, connection.turn, connection.flush, connection.close,
                 lambda: connection.run(1), channel.close, lambda: channel.get("q"), mine.forget)
        run(lambda: told.extend(str(fails(RuntimeError, call)) for call in calls))
        assert len(told) == len(calls) and all("move_here" in words for words in told), told
        assert mine.wait(5)
        run(lambda: (connection.move_here(), told.append(bool(channel.publish("", "q", b"moved").wait(5)))))
        assert told[-1] is True
        connection.move_here()


@test
def two_threads_over_a_session_give_no_number_twice():
    session, numbers, refused = _library.Session(131072), [[], []], []
    session.call(1, b"\x00\x14\x00\x0a\x00")
    session.send()
    session.receive(scripted.method(1, 20, 11, scripted.long_text(b"")))

    def work(mine):
        for turn in range(5000):
            try:
                mine.append(session.publish(1, b"", b"q", bytes(50)))
                if turn % 100 == 0:
                    session.send()
            except RuntimeError as error:
                refused.append(error)
    other = threading.Thread(target=work, args=(numbers[1],))
    other.start()
    work(numbers[0])
    other.join(60)
    assert len(numbers[0]) == 5000 and not numbers[1] and len(refused) == 5000
    assert type(_library._library).__name__ == "PyDLL", "the interpreter's lock is given away"


@test
def a_forked_process_is_refused_and_harms_nothing():
    def script(peer):
        confirms(peer)
        assert peer.expect_publish(1)[1] == b"parent"
        peer.send(scripted.ack(1, 1))
        peer.close()

    def child():
        with connection:
            for call in (lambda: channel.publish("", "q", b"child"), connection.channel, connection.flush, connection.move_here):
                assert "forked" in str(fails(RuntimeError, call))
    with Broker(script) as url, lapin.connect(url) as connection:
        channel = connection.channel(confirms=True)
        process = os.fork()
        if process == 0:
            try:
                child()
                os._exit(0)
            finally:
                os._exit(1)
        assert os.waitpid(process, 0)[1] == 0, "the child"
        assert channel.publish("", "q", b"parent").wait(5)


@test
def a_use_from_a_signal_handler_is_told():
    def script(peer):
        confirms(peer)
        assert peer.expect_publish(1)[1] == b"handler"
        peer.send(scripted.ack(1, 1))
        peer.close()
    with Broker(script) as url, lapin.connect(url) as connection:
        channel, told = connection.channel(confirms=True), []
        before = signal.signal(signal.SIGALRM, lambda *_: told.append(channel.publish("", "q", b"handler").wait(5)))
        try:
            signal.setitimer(signal.ITIMER_REAL, 0.1)
            assert not connection.turn(0.4) and told[0], "between its waits a connection can be used"
        finally:
            signal.signal(signal.SIGALRM, before)
        connection._is_inside = True
        assert "within its own call" in str(fails(RuntimeError, connection.flush))
        connection._is_inside = False


@test
def more_files_may_be_open_than_select_takes():
    def script(peer):
        confirms(peer)
        peer.expect_publish(1)
        time.sleep(0.1)
        peer.send(scripted.ack(1, 1))
        peer.close()
    held = [os.open("/dev/null", os.O_RDONLY) for _ in range(1100)]
    try:
        with Broker(script) as url, lapin.connect(url) as connection:
            assert connection._wire.socket.fileno() > 1023
            assert connection.channel(confirms=True).publish("", "q", b"x").wait(5)
    finally:
        for it in held:
            os.close(it)

"""Notices: what the broker does that no call asked for, told once and outside of what reads; and consumers by their tags."""
import asyncio
import concurrent.futures
import struct

import lapin
import scripted
from checks.common import fails, test, within
from lapin import aio
from scripted import Broker

BLOCKED, UNBLOCKED = scripted.method(0, 10, 60, scripted.short_text("memory")), scripted.method(0, 10, 61)


def tells_all(peer):
    """A script of each notice: blocked and not, a message that came back in pieces, a cancel, a close of a channel and of the connection."""
    peer.open()
    for number in (1, 2):
        peer.channel(number)
    peer.consume(1, "t")
    assert peer.expect_publish(1) == ("nowhere", b"lost")
    peer.send(BLOCKED + scripted.returned(1, "nowhere", b"lost"), pieces=9)
    assert peer.expect(1, 20, 20) == b"\1"
    peer.send(scripted.method(1, 20, 21, b"\1") + UNBLOCKED + scripted.method(1, 60, 30, scripted.short_text("t") + b"\x01"))
    peer.send(scripted.channel_close(2, 404, "NOT_FOUND - gone", (60, 40)))
    peer.expect(2, 20, 41)
    peer.send(scripted.connection_close(320, "CONNECTION_FORCED - bye"))
    peer.expect(0, 10, 51)


TOLD = ["blocked", "returned NO_ROUTE b'lost'", "unblocked", "ended t", "closed NOT_FOUND - gone", "gone CONNECTION_FORCED - bye"]


def listened(connection, one, two, consumer):
    """What is told, as words, in the list that is given back."""
    told = []
    connection.on_blocked = lambda is_blocked: told.append("blocked" if is_blocked else "unblocked")
    connection.on_close = lambda error: told.append(f"gone {error.reason.text}")
    one.on_return = lambda returned: told.append(f"returned {returned.reply_text} {returned.body}")
    two.on_close = lambda error: told.append(f"closed {error.reason.text}")
    consumer.on_end = lambda it: told.append(f"ended {it.tag}")
    return told


@test
def notices_are_told_once_by_turns():
    with within(60), Broker(tells_all) as url, lapin.connect(url) as connection:
        one, two = connection.channel(), connection.channel()
        told = listened(connection, one, two, consumer := one.consume("q", print, tag="t"))
        one.publish("", "nowhere", b"lost", mandatory=True)
        connection.flush()
        while len(told) < 2:
            connection.turn(5)
        assert one.flow(True) is True and told == TOLD[:2], "a call that waits tells none"
        with concurrent.futures.ThreadPoolExecutor(1) as elsewhere:
            for call in (connection.turn, connection.hand_on):
                fails(RuntimeError, elsewhere.submit(call).result)
        connection.run(20)  # (until its last consumer ends)
        fails(lapin.ConnectionLost, lambda: [connection.turn(5) for _ in range(9)])
        fails(lapin.ConnectionLost, lambda: connection.turn(0))
        assert sorted(told) == sorted(TOLD) and told[-1] == TOLD[-1] and not consumer.is_active, told
        connection.close()
        connection.close()
        assert len(told) == len(TOLD)


@test
def notices_are_told_once_by_the_loop():
    def fails_once(error):
        raise KeyError("mine")

    async def main(url):
        raised = []
        asyncio.get_running_loop().set_exception_handler(lambda loop, told: raised.append(told["exception"]))
        async with await aio.connect(url) as connection:
            one, two = await connection.channel(), await connection.channel()
            told = listened(connection, one, two, await one.consume("q", print, tag="t"))
            told_of, two.on_close = two.on_close, fails_once
            one.publish("", "nowhere", b"lost", mandatory=True)
            while len(told) < 2:
                await asyncio.sleep(0.01)
            assert await one.flow(True) is True
            while len(told) < 5:
                await asyncio.sleep(0.01)
            await connection.close()
        told_of(lapin.Refused("", lapin.CloseReason(404, 60, 40, "NOT_FOUND - gone")))
        assert sorted(told) == sorted(TOLD) and [type(it) for it in raised] == [KeyError], (told, raised)
    with within(60), Broker(tells_all) as url:
        asyncio.run(main(url))


@test
def an_end_that_a_call_meets_is_told_and_an_own_one_is_not():
    def script(peer):
        peer.open()
        peer.channel(1)
        peer.expect(1, 50, 10)
    told = []
    with within(60), Broker(script) as url, lapin.connect(url) as connection:
        connection.on_close = told.append
        channel = connection.channel()
        fails(lapin.CallFailed, lambda: channel.queue_declare("q"))
        fails(lapin.ConnectionLost, lambda: connection.turn(0))
        assert len(told) == 1 and isinstance(told[0], lapin.ConnectionLost)

    def closes(peer):
        peer.open()
        peer.channel(1)
        peer.expect(1, 20, 40)
        peer.send(scripted.method(1, 20, 41))
        peer.close()
    with within(60), Broker(closes) as url, lapin.connect(url) as connection:
        channel = connection.channel()
        connection.on_close = channel.on_close = told.append
        channel.close()
        channel.close()
        connection.close()
        connection.close()
        assert len(told) == 1


@test
def a_consumer_is_cancelled_by_its_tag_and_says_when_nothing_comes():
    def script(peer):
        peer.open()
        peer.channel(1)
        for tag in ("lapin.1.1", "b"):
            peer.consume(1, tag)
        peer.send(scripted.deliver(1, "b", 1, b"one"))
        assert peer.expect(1, 60, 80) == struct.pack(">QB", 1, 0)
        assert peer.expect(1, 60, 30) == scripted.short_text("b") + b"\0"
        peer.send(scripted.method(1, 60, 31, scripted.short_text("b")))
        peer.close()
    with within(60), Broker(script) as url, lapin.connect(url) as connection:
        channel = connection.channel()
        first, second = channel.consume("q"), channel.consume("q", tag="b")
        assert first.tag == "lapin.1.1"
        got = second.messages(inactivity_timeout=0.2)
        assert next(got).ack() and next(got) is None and next(got) is None
        channel.cancel("b")
        assert list(got) == [] and not second.is_active and first.is_active
        assert "'b'" in str(fails(ValueError, lambda: channel.cancel("b")))

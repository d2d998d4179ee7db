"""The same with asyncio, and what its programs do: cancel, raise in a callback, close at once, iterate over what is lost."""
import asyncio
import random
import struct
import time

import lapin
import scripted
from checks.common import confirms, fails, rabbit, test, within
from lapin import aio
from scripted import Broker, HungUp


@test
def asyncio_publishes_and_consumes():
    def script(peer):
        confirms(peer, heartbeat=5)
        peer.declare(1, "q")
        assert [peer.expect_publish(1)[1] for _ in range(3)] == [b"0", b"1", b"2"]
        peer.send(scripted.ack(1, 2, multiple=1) + scripted.nack(1, 3))
        peer.consume(1, "t")
        peer.send(scripted.deliver(1, "t", 1, b"a") + scripted.deliver(1, "t", 2, b"b"), pieces=4)
        assert peer.expect(1, 60, 80) == struct.pack(">QB", 1, 0)
        assert peer.expect(1, 60, 80) == struct.pack(">QB", 2, 0)
        peer.close()

    async def main(url):
        async with await aio.connect(url) as connection:
            channel = await connection.channel(confirms=True)
            assert (await channel.queue_declare("q")).name == "q"
            given = [channel.publish("", "q", b"%d" % number) for number in range(3)]
            assert [(await confirm).kind for confirm in given] == ["ack", "ack", "nack"]
            consumer = await channel.consume("q")
            assert [(await consumer.next(30)).ack() for _ in range(2)] == [True, True]
    with Broker(script) as url:
        asyncio.run(main(url))


@test
def asyncio_tells_a_cut_connection():
    def script(peer):
        confirms(peer)
        peer.consume(1, "t")
        peer.expect_publish(1)

    async def main(url):
        async with await aio.connect(url) as connection:
            channel = await connection.channel(confirms=True)
            consumer = await channel.consume("q")
            waits = [asyncio.ensure_future(it) for it in (channel.publish("", "q", b"x").wait(30), anext(aiter(consumer)), consumer.next(), channel.get("q"))]
            told = await asyncio.gather(*waits, return_exceptions=True)
            assert [(type(it), it.cause) for it in told] == [(lapin.CallFailed, "ConnectionLost")] * 4, told
            fails(lapin.Refused, lambda: channel.publish("", "q", b"x"))
    with within(30), Broker(script) as url:
        asyncio.run(main(url))


@test
def who_is_cancelled_loses_no_message():
    count, pauses = 400, random.Random(7)

    def script(peer):
        peer.open()
        peer.channel(1)
        peer.consume(1, "t")
        for tag in range(1, count + 1):
            time.sleep(pauses.random() * 0.002)
            peer.send(scripted.deliver(1, "t", tag, b"%d" % tag))
        assert [peer.expect(1, 60, 80) for _ in range(count)] == [struct.pack(">QB", tag, 0) for tag in range(1, count + 1)]
        peer.close()

    async def main(url):
        async with await aio.connect(url) as connection:
            consumer, draw = await (await connection.channel()).consume("q"), random.Random(3)
            for tag in range(1, count + 1):
                while True:
                    try:
                        message = await asyncio.wait_for(consumer.next(), 0.0005 + draw.random() * 0.0005)
                        break
                    except asyncio.TimeoutError:
                        pass
                assert message.body == b"%d" % tag and message.ack(), message
    with within(60), Broker(script) as url:
        asyncio.run(main(url))


@test
def what_a_cancelled_call_brings_goes_back():
    def script(peer):
        confirms(peer)
        peer.expect(1, 60, 70)
        peer.expect(1, 60, 20)
        time.sleep(0.2)
        peer.send(scripted.method(1, 60, 71, struct.pack(">QB", 1, 0) + scripted.short_text("") + scripted.short_text("q") + bytes(4)) + scripted.content(1, b"m"))
        peer.send(scripted.method(1, 60, 21, scripted.short_text("t")) + scripted.deliver(1, "t", 2, b"m"))
        found = sorted(peer.frame()[2] for _ in range(3))
        back = [b"\x00\x3c\x00\x5a" + struct.pack(">QB", tag, 1) for tag in (1, 2)]
        assert found == [b"\x00\x3c\x00\x1e\x01t\x00", *back], found
        peer.send(scripted.method(1, 60, 31, scripted.short_text("t")))
        peer.expect(2, 20, 10)
        peer.close()

    async def main(url):
        async with await aio.connect(url) as connection:
            channel = await connection.channel(confirms=True)
            for call in (channel.get("q"), channel.consume("q", tag="t")):
                task = asyncio.ensure_future(call)
                await asyncio.sleep(0.05)
                task.cancel()
                await asyncio.gather(task, return_exceptions=True)
            await asyncio.sleep(0.3)
            try:
                await asyncio.wait_for(connection.channel(), 0.1)
            except asyncio.TimeoutError:
                assert connection._orphans == {2}
    with within(30), Broker(script) as url:
        asyncio.run(main(url))


@test
def a_callback_that_raises_goes_where_the_loop_looks():
    for kind in (ValueError, KeyError, OSError):
        for is_coroutine in (False, True):
            def script(peer):
                confirms(peer)
                peer.consume(1, "t")
                peer.send(scripted.deliver(1, "t", 1, b"1") + scripted.deliver(1, "t", 2, b"2"))
                assert [peer.expect(1, 60, 80)[7] for _ in range(2)] == [1, 2]
                assert peer.expect_publish(1)[1] == b"x"
                peer.send(scripted.ack(1, 1))
                peer.close()

            async def main(url):
                async with await aio.connect(url) as connection:
                    told = []
                    asyncio.get_running_loop().set_exception_handler(lambda _, context: told.append(context.get("exception")))
                    channel = await connection.channel(confirms=True)

                    def work(message):
                        message.ack()
                        raise kind("mine")

                    async def later(message):
                        work(message)
                    await channel.consume("q", later if is_coroutine else work)
                    await asyncio.sleep(0.2)
                    assert connection.is_open and await channel.publish("", "q", b"x").wait(5)
                    assert [type(it) for it in told] == [kind, kind], told
            with within(30), Broker(script) as url:
                asyncio.run(main(url))


@test
def a_consumer_with_a_callback_ends_aloud():
    def script(peer):
        confirms(peer)
        peer.consume(1, "t")
        peer.send(scripted.method(1, 60, 30, scripted.short_text("t") + b"\x01"))
        peer.consume(1, "u")
        try:
            peer.frame()
        except HungUp:
            pass

    async def main(url):
        connection, told = await aio.connect(url), []
        asyncio.get_running_loop().set_exception_handler(lambda _, context: told.append((context["message"], context.get("exception"))))
        channel = await connection.channel(confirms=True)
        await channel.consume("q", print, tag="t")
        await channel.consume("q", print, tag="u")
        connection._writer.transport.abort()
        await asyncio.sleep(0.2)
        assert [(words, error and error.cause) for words, error in told] == [("lapin: the consumer t ended", None), ("lapin: the consumer u ended", "ConnectionLost")], told
        await connection.close()
    with within(30), Broker(script) as url:
        asyncio.run(main(url))


@test
def a_close_comes_behind_what_was_published():
    got = []

    def script(peer):
        confirms(peer)
        peer.acks(1, got)

    async def main(url):
        connection = await aio.connect(url)
        channel = await connection.channel(confirms=True)
        given = [channel.publish("", "q", bytes(100_000)) for _ in range(60)]
        await connection.close(20)
        for confirm in given:  # the close decides those that weren't answered yet
            try:
                assert confirm.poll()
            except lapin.CallFailed:
                pass
        await connection.close()
    with within(60), Broker(script) as url:
        asyncio.run(main(url))
    assert [len(body) for body in got] == [100_000] * 60


@test
def asyncio_sorts_returned_messages_too():
    def script(peer):
        confirms(peer)
        given = [peer.expect_publish(1) for _ in range(40)]
        peer.send(b"".join(scripted.returned(1, *given[at]) for at in range(1, 40, 4)) + scripted.ack(1, 40, multiple=1), pieces=7)
        peer.close()

    async def main(url):
        async with await aio.connect(url) as connection:
            channel = await connection.channel(confirms=True)
            given = [channel.publish("", "q", b"%d" % at, mandatory=at % 2 == 1) for at in range(40)]
            told = await asyncio.gather(*(it.wait(10) for it in given))
            assert [it.returned and it.returned.body for it in told] == [b"%d" % at if at % 4 == 1 else None for at in range(40)]
            assert not connection._asking
    with within(30), Broker(script) as url:
        asyncio.run(main(url))


@rabbit
def rabbitmq_and_asyncio(url):
    async def main():
        connection, other = await aio.connect(url), await aio.connect(url)
        channel, publisher = await connection.channel(prefetch=100), await other.channel(confirms=True)
        queue = (await publisher.queue_declare("check.aio")).name
        consumer, got, draw = await channel.consume(queue), [], random.Random(5)
        given = [publisher.publish("", queue if at % 2 else "nobody", b"%d" % at, mandatory=True) for at in range(2000)]
        while len(got) < 1000:
            try:
                message = await asyncio.wait_for(consumer.next(), draw.random() * 0.0015)
                got.append(int(message.body))
                message.ack()
            except asyncio.TimeoutError:
                pass
        assert got == list(range(1, 2000, 2))
        told = await asyncio.gather(*(it.wait(20) for it in given))
        assert [it.returned and int(it.returned.body) for it in told] == [None if at % 2 else at for at in range(2000)]
        await consumer.cancel()
        last = [publisher.publish("", queue, bytes(100_000)) for _ in range(100)]
        await other.close(20)
        assert len(last) == await channel.queue_delete(queue)
        await connection.close()
    with within(90):
        asyncio.run(main())

"""Many that wait: what comes is theirs in its order, nothing is lost where one of them goes, and they cost what few do."""
import asyncio
import random
import signal
import struct
import sys

import lapin
import scripted
from checks.common import Alarm, alarmed, fails, test, within
from lapin import _library, aio
from scripted import Broker


def crowd(peer, many, channels=1):
    """A script's beginning: so many consumers on so many channels. Their channels and tags."""
    peer.open(frame_max=131072)
    for number in range(1, channels + 1):
        peer.channel(number)
    found = [(at % channels + 1, f"t{at}") for at in range(many)]
    for number, tag in found:
        peer.consume(number, tag)
    return found


def deliveries(consumers, draw, count, tags):
    """Messages for consumers by lot, whose bodies are their tags; a third goes where the one before went."""
    whose, found = draw.choice(consumers), []
    for _ in range(count):
        whose = whose if draw.random() < 0.34 else draw.choice(consumers)
        tags[whose[0]] = tags.get(whose[0], 0) + 1
        found.append(scripted.deliver(*whose, tags[whose[0]], b"%d" % tags[whose[0]]))
    return b"".join(found)


def numbers_of(acks):
    return [struct.unpack(">QB", it)[0] for it in acks]


@test
def messages_of_one_channel_are_handed_on_in_their_order():
    def script(peer):
        consumers, draw, tags = crowd(peer, 40, channels=2), random.Random(3), {}
        for pieces in (0, 997, 0):
            peer.send(deliveries(consumers, draw, 100, tags), pieces)
        for _ in range(300):
            kind, number, payload = peer.frame()
            assert (kind, payload[:4]) == (1, b"\x00\x3c\x00\x50")
            acked.setdefault(number, []).append(struct.unpack(">Q", payload[4:12])[0])
        peer.close()
    for is_awaited in (False, True):
        acked, seen = {}, []

        def take(message):
            seen.append(message)
            assert message.ack()

        async def main(url):
            async with await aio.connect(url) as connection:
                channels = [await connection.channel(), await connection.channel()]
                for at in range(40):
                    await channels[at % 2].consume("q", take, tag=f"t{at}")
                while len(seen) < 300:
                    await asyncio.sleep(0.01)
        with within(120), Broker(script) as url:
            if is_awaited:
                asyncio.run(main(url))
            else:
                with lapin.connect(url) as connection:
                    channels = connection.channel(), connection.channel()
                    for at in range(40):
                        channels[at % 2].consume("q", take, tag=f"t{at}")
                    while len(seen) < 300:
                        connection.run(0.1)
        assert all(it == list(range(1, len(it) + 1)) for it in acked.values()) and sum(map(len, acked.values())) == 300, acked


@test
def no_channel_waits_behind_another_one():
    def script(peer):
        crowd(peer, 2, channels=2)
        peer.send(b"".join(scripted.deliver(1, "t0", tag, b"one") for tag in range(1, 101)) + scripted.deliver(2, "t1", 1, b"two"))
        for _ in range(101):
            peer.frame()
        peer.close()
    with within(60), Broker(script) as url, lapin.connect(url) as connection:
        channels, seen = [connection.channel(), connection.channel()], []
        for at in range(2):
            channels[at].consume("q", lambda it: (seen.append(it.body), it.ack()), tag=f"t{at}")
        while len(seen) < 101:
            connection.run(0.1)
        assert b"two" in seen[:60], seen.index(b"two")


@test
def who_was_woken_and_is_cancelled_loses_nothing():
    def script(peer):
        crowd(peer, 1)
        peer.declare(1, "go")
        peer.send(scripted.deliver(1, "t0", 1, b"1"))
        assert numbers_of([peer.expect(1, 60, 80)]) == [1]
        peer.close()

    async def main(url):
        async with await aio.connect(url) as connection:
            channel = await connection.channel()
            consumer, woken = await channel.consume("q", tag="t0"), connection._wake_one
            first, second = (asyncio.ensure_future(consumer.next()) for _ in range(2))

            def wakes(it):
                woken(it)
                first.cancel()  # between the message and the one that waits for it
            connection._wake_one = wakes
            await channel.queue_declare("go")
            message = await asyncio.wait_for(second, 20)
            assert first.cancelled() and message.body == b"1" and message.ack()
            assert not connection._asking
    with within(60), Broker(script) as url:
        asyncio.run(main(url))


@test
def many_wait_for_one_consumer_and_each_message_is_one_of_theirs():
    count = 300

    def script(peer):
        crowd(peer, 1)
        peer.declare(1, "go")
        sent, draw = 0, random.Random(5)
        while sent < count:
            burst = min(draw.randrange(1, 6), count - sent)
            peer.send(b"".join(scripted.deliver(1, "t0", tag, b"%d" % tag) for tag in range(sent + 1, sent + burst + 1)))
            sent += burst
            assert len([peer.expect(1, 60, 80) for _ in range(burst)]) == burst
        peer.expect(1, 60, 30)
        peer.send(scripted.method(1, 60, 31, scripted.short_text("t0")))
        peer.close()

    async def main(url):
        async with await aio.connect(url) as connection:
            channel, seen, draw = await connection.channel(), [], random.Random(9)
            consumer = await channel.consume("q", tag="t0")

            async def take():
                while (message := await consumer.next()) is not None:
                    seen.append(int(message.body))
                    message.ack()
            tasks, woken = [asyncio.ensure_future(take()) for _ in range(30)], connection._wake_one

            def wakes(it):
                woken(it)
                for at in draw.sample(range(30), 8 * (len(seen) < count)):  # between the message and those that wait for it
                    tasks[at].cancel()
            connection._wake_one = wakes
            await channel.queue_declare("go")
            while len(seen) < count:
                await asyncio.sleep(0.001)
                tasks[:] = [asyncio.ensure_future(take()) if it.done() else it for it in tasks]
            del connection._wake_one
            await asyncio.sleep(0.01)
            tasks[:] = [it for it in tasks if not it.done()]
            await consumer.cancel()
            await asyncio.wait_for(asyncio.gather(*tasks), 20)  # each meets the end
            assert sorted(seen) == list(range(1, count + 1)) and not connection._asking, len(set(seen))
    with within(120), Broker(script) as url:
        asyncio.run(main(url))


@test
def a_callback_that_raises_leaves_the_others_theirs():
    def script(peer):
        consumers = crowd(peer, 8)
        peer.send(b"".join(scripted.deliver(*consumers[tag % 3], tag, b"%d" % tag) for tag in range(1, 31)))
        assert numbers_of([peer.expect(1, 60, 80) for _ in range(27)]) == [tag for tag in range(1, 31) if tag % 10]
        peer.close()
    with within(60), Broker(script) as url, lapin.connect(url) as connection:
        channel, seen, raised = connection.channel(), [], 0

        def take(message):
            seen.append(int(message.body))
            if seen[-1] % 10 == 0:
                raise KeyError("mine")
            assert message.ack()
        for at in range(8):
            channel.consume("q", take, tag=f"t{at}")
        while len(seen) < 30:
            try:
                connection.run(0.1)
            except KeyError:
                raised += 1
        connection.turn(0)
        assert seen == list(range(1, 31)) and raised == 3, (seen, raised)


def interrupted(url, draw, seen, fell):
    """Has messages handed on while exceptions fall at random places. Whether the connection was lost."""
    connection = lapin.connect(url)
    channel, is_on = connection.channel(), [False]

    def rings(*_):
        if is_on[0]:
            is_on[0] = False
            fell.append(len(seen))
            alarmed()
    before = signal.signal(signal.SIGALRM, rings)
    try:
        for at in range(20):
            channel.consume("q", lambda message: (seen.append(int(message.body)), message.ack()), tag=f"t{at}")
        while not seen or seen[-1] < 2000:
            try:
                is_on[0] = True
                signal.setitimer(signal.ITIMER_REAL, draw.random() * 0.004)
                connection.run(0.05)
            except Alarm:
                pass
            finally:
                is_on[0] = False
    except lapin.Error:
        return True
    finally:
        signal.setitimer(signal.ITIMER_REAL, 0)
        signal.signal(signal.SIGALRM, before)
        connection.close(1)
    return False


@test
def exceptions_at_random_places_leave_nobody_unheard():
    def script(peer):
        try:
            consumers, draw, tags = crowd(peer, 20), random.Random(3), {}
            for _ in range(100):
                peer.send(deliveries(consumers, draw, 20, tags))
            while True:
                if peer.frame()[2][:4] == b"\x00\x0a\x00\x32":
                    return peer.send(scripted.method(0, 10, 51))
        except (scripted.HungUp, ConnectionError):
            pass
    draw, all_fell = random.Random(17), 0
    with Broker(script, many=True) as url:
        for _ in range(12):
            seen, fell = [], []
            is_lost = interrupted(url, draw, seen, fell)
            all_fell += len(fell)
            assert seen == sorted(set(seen)), "none twice, and in their order"
            assert is_lost or 2000 - len(seen) <= len(fell), f"{2000 - len(seen)} unheard of behind {len(fell)} exceptions"
    assert all_fell > 12, all_fell


@test
def a_consumer_that_ends_takes_nothing_with_it():
    def script(peer):
        crowd(peer, 4, channels=2)
        peer.send(scripted.deliver(1, "t0", 1, b"1") + scripted.deliver(1, "t2", 2, b"2") + scripted.deliver(2, "t1", 1, b"other")
                  + scripted.method(1, 60, 30, scripted.short_text("t0") + b"\x01") + scripted.deliver(1, "t2", 3, b"3")
                  + scripted.channel_close(2, 404, "NOT_FOUND - gone", (60, 20)))
        assert sorted(peer.frame()[2][:4] for _ in range(4)) == [b"\x00\x14\x00\x29", *[b"\x00\x3c\x00\x50"] * 3]
        peer.close()
    with within(60), Broker(script) as url, lapin.connect(url) as connection:
        channels, seen, ended = [connection.channel(), connection.channel()], [], []
        consumers = [channels[at % 2].consume("q", lambda it: (seen.append(it.body), it.ack()), tag=f"t{at}") for at in range(4)]
        for it in consumers:
            it.on_end = lambda consumer: ended.append(consumer.tag)
        for _ in range(2):  # the error that ended a consumer is raised, of each once
            assert "NOT_FOUND - gone" in str(fails(lapin.CallFailed, lambda: connection.run(5), code=404))
        connection.run(0.2)
        assert sorted(seen) == [b"1", b"2", b"3", b"other"] and sorted(ended) == ["t0", "t1", "t3"], (seen, ended)
        assert [it.is_active for it in consumers] == [False, False, True, False]


# ---- what they cost

class Counted:
    """The shared object, whose calls are counted, and those of Python's functions."""

    def __init__(self):
        self.real, self.count = _library._library, 0

    def __getattr__(self, name):
        self.count += 1
        return getattr(self.real, name)

    def noted(self, frame, event, argument):
        self.count += event in ("call", "c_call")

    def __enter__(self):
        _library._library = self
        self.count = 0
        sys.setprofile(self.noted)
        return self

    def __exit__(self, *_):
        sys.setprofile(None)
        _library._library = self.real


TURNS = 60


def quiet(many):
    """A script of so many consumers and a channel with confirms that says nothing more until the close: what comes is given to the connection here."""
    def script(peer):
        crowd(peer, many)
        peer.channel(2, confirms=True)
        while peer.frame()[2][:4] != b"\x00\x0a\x00\x32":
            pass
        peer.send(scripted.method(0, 10, 51))
    return script


def messages(many):
    """A message for a consumer by lot, so often."""
    draw, tags = random.Random(3), {}
    return [deliveries([(1, f"t{at}") for at in range(many)], draw, 1, tags) for _ in range(TURNS)]


def costs_of_run(many):
    """Calls of a delivery that is handed on, and of a turn in which nothing came."""
    with within(120), Broker(quiet(many)) as url, lapin.connect(url, heartbeat=0) as connection:
        channel, seen, costs = connection.channel(), [], []
        for at in range(many):
            channel.consume("q", lambda message: seen.append(message.ack()), tag=f"t{at}")
        connection.channel(confirms=True)
        given = messages(many)
        for octets in (given[:2], given[2:], [scripted.frame(8, 0, b"")] * TURNS):  # (each is asked once as it begins, which isn't counted)
            with Counted() as counted:
                for it in octets:
                    connection._receive(it)
                    while connection.hand_on():
                        pass
            costs.append(counted.count)
        assert len(seen) == TURNS and all(seen)
        return costs[1:]


async def costs_awaited(many, url, by_callbacks):
    async with await aio.connect(url, heartbeat=0) as connection:
        channel, seen, costs = await connection.channel(), [], []
        came, feed = asyncio.Event(), connection._reader.feed_data

        def take(message):
            seen.append(message.ack())
            came.set()

        async def takes(consumer):
            async for message in consumer:
                take(message)

        async def delivered(octets):
            feed(octets)
            await came.wait()
            came.clear()

        async def called(number):
            call = asyncio.ensure_future(other.queue_declare("q"))
            await asyncio.sleep(0)
            feed(scripted.method(2, 50, 11, scripted.short_text("q") + bytes(8)))
            await call

        async def published(number):
            confirm = other.publish("", "q", b"x")
            feed(scripted.ack(2, number + 1))
            assert await confirm
        consumers = [await channel.consume("q", take if by_callbacks else None, tag=f"t{at}") for at in range(many)]
        other = await connection.channel(confirms=True)
        tasks = [] if by_callbacks else [asyncio.ensure_future(takes(it)) for it in consumers]
        given = messages(many)
        for it in given[:2]:
            await delivered(it)
        for each, of in ((delivered, given[2:]), (called, range(TURNS)), (published, range(TURNS))):
            with Counted() as counted:
                for it in of:
                    await each(it)
            costs.append(counted.count)
        for task in tasks:
            task.cancel()
        await asyncio.gather(*tasks, return_exceptions=True)
        assert len(seen) == TURNS and all(seen)
        return costs


def costs_of_callbacks(many):
    """Calls of a delivery that the loop hands on, of an awaited call, and of a confirmed publish."""
    with within(120), Broker(quiet(many)) as url:
        return asyncio.run(costs_awaited(many, url, True))


def costs_of_coroutines(many):
    """The same where a coroutine waits for the messages of each consumer."""
    with within(120), Broker(quiet(many)) as url:
        return asyncio.run(costs_awaited(many, url, False))


@test
def many_that_wait_cost_what_one_does():
    for costs in (costs_of_run, costs_of_callbacks, costs_of_coroutines):
        one, many = costs(1), costs(400)
        assert all(it <= 1.2 * alone for it, alone in zip(many, one)), f"{costs.__name__}: {many} calls of 400 where one has {one}"

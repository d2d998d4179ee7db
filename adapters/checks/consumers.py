"""Consumers: deliveries in pieces, fates that are told once, gets, and a consumer's end."""
import decimal
import gc
import os
import random
import resource
import struct
import time

import lapin
import scripted
from checks.common import fails, rabbit, test, within
from scripted import Broker, HungUp


@test
def deliveries_in_pieces_are_acknowledged_once():
    body = random.Random(7).randbytes(20_000)
    properties = struct.pack(">H", 0x2000) + scripted.long_text(scripted.short_text("f") + b"d" + struct.pack(">d", 1.5) + scripted.short_text("n") + b"I" + struct.pack(">i", -3))

    def script(peer):
        peer.open()
        peer.channel(1)
        peer.consume(1, "tag-1")
        for tag, pieces in ((1, 1), (2, 7), (3, 4096), (4, 0)):
            peer.send(scripted.deliver(1, "tag-1", tag, body[:tag * 5000], properties=properties), pieces)
        for tag in (1, 2, 3):
            assert peer.expect(1, 60, 80) == struct.pack(">QB", tag, 0)
        assert peer.expect(1, 60, 90) == struct.pack(">QB", 4, 0)
        peer.close()
    with Broker(script) as url, lapin.connect(url) as connection:
        channel, got = connection.channel(), []

        def take(message):
            got.append(message.body)
            assert message.properties["headers"]["n"] == -3 and message.properties["headers"]["f"] == 1.5
            assert (message.reject(requeue=False) if len(got) == 4 else message.ack()) is True
            assert message.ack() is False and message.nack() is False
        channel.consume("q", take)
        while len(got) < 4:
            connection.run(0.05)
        assert got == [body[:5000], body[:10_000], body[:15_000], body[:20_000]]


@test
def what_is_no_text_comes_as_bytes():
    key, no_text = scripted.short_text(b"\xff"), b"\xff\xfe"
    table = scripted.long_text(scripted.short_text("s") + b"S" + scripted.long_text(no_text) + scripted.short_text("D") + b"D\x02\x00\x00\x01\x3a")
    given = (
        (struct.pack(">H", 0x2000) + table, {"headers": {"s": no_text, "D": decimal.Decimal("3.14")}}),
        (struct.pack(">H", 0x9000) + scripted.short_text(no_text) + b"\x02", {"content_type": no_text, "delivery_mode": 2}),
        (struct.pack(">H", 0x2000) + scripted.long_text(key + b"t\x01"), {"headers": {b"\xff": True}}),
        (struct.pack(">H", 0x0400) + scripted.short_text("é".encode("latin-1")), {"correlation_id": b"\xe9"}),
    )

    def script(peer):
        peer.open()
        peer.channel(1)
        peer.consume(1, "tag-1")
        peer.send(b"".join(scripted.deliver(1, "tag-1", tag, b"body", properties=it[0]) for tag, it in enumerate(given, 1)))
        for tag in range(1, len(given) + 1):
            assert peer.expect(1, 60, 80) == struct.pack(">QB", tag, 0)
        peer.close()
    with Broker(script) as url, lapin.connect(url) as connection:
        consumer = connection.channel().consume("q")
        for octets, properties in given:
            message = consumer.next(30)
            assert message.properties == properties and message.properties_octets == octets and message.body == b"body", message.properties
            assert message.ack()


@test
def a_get_gives_a_message_or_none():
    def script(peer):
        peer.open()
        peer.channel(1)
        peer.expect(1, 60, 70)
        peer.send(scripted.method(1, 60, 72, scripted.short_text("")))
        peer.expect(1, 60, 70)
        peer.send(scripted.method(1, 60, 71, struct.pack(">QB", 9, 1) + scripted.short_text("e") + scripted.short_text("k") + struct.pack(">I", 4)) + scripted.content(1, b"m"))
        peer.expect(1, 60, 80)
        peer.close()
    with Broker(script) as url, lapin.connect(url) as connection:
        channel = connection.channel()
        assert channel.get("q") is None
        message = channel.get("q")
        assert (message.body, message.exchange, message.routing_key, message.redelivered, message.left) == (b"m", "e", "k", True, 4)
        assert message.ack() and not message.ack()


@test
def a_canceled_consumer_ends():
    def script(peer):
        peer.open()
        peer.channel(1)
        peer.consume(1, "t")
        peer.send(scripted.deliver(1, "t", 1, b"last") + scripted.method(1, 60, 30, scripted.short_text("t") + b"\x01"))
        peer.close()
    with Broker(script) as url, lapin.connect(url) as connection:
        assert [message.body for message in connection.channel().consume("q")] == [b"last"]


@test
def a_cancelled_consumer_gives_back_what_it_had():
    def script(peer):
        peer.open()
        peer.channel(1)
        peer.consume(1, "t")
        peer.send(b"".join(scripted.deliver(1, "t", tag, b"%d" % tag) for tag in range(1, 5)))
        assert peer.expect(1, 60, 80) == struct.pack(">QB", 1, 0)
        peer.expect(1, 60, 30)
        peer.send(scripted.deliver(1, "t", 5, b"5") + scripted.method(1, 60, 31, scripted.short_text("t")))
        assert [peer.expect(1, 60, 90) for _ in range(4)] == [struct.pack(">QB", tag, 1) for tag in range(2, 6)], "in the order in which they came"
        peer.close()
    with Broker(script) as url, lapin.connect(url) as connection:
        consumer = connection.channel().consume("q")
        assert consumer.next(5).ack()
        consumer.cancel()
        assert not consumer.is_active and consumer.next(1) is None and list(consumer) == []
        consumer.cancel()


@test
def a_get_that_was_given_up_gives_its_message_back():
    def script(peer):
        peer.open()
        peer.channel(1)
        peer.expect(1, 60, 70)
        peer.declare(1, "q")
        peer.send(scripted.method(1, 60, 71, struct.pack(">QB", 9, 0) + scripted.short_text("") + scripted.short_text("q") + bytes(4)) + scripted.content(1, b"m"))
        assert peer.expect(1, 60, 90) == struct.pack(">QB", 9, 1)
        peer.expect(1, 60, 20)
        peer.declare(1, "q")
        peer.send(scripted.method(1, 60, 21, scripted.short_text("t")) + scripted.deliver(1, "t", 10, b"m"))
        peer.expect(1, 60, 30)
        peer.send(scripted.method(1, 60, 31, scripted.short_text("t")))
        assert peer.expect(1, 60, 90) == struct.pack(">QB", 10, 1)
        peer.close()
    with Broker(script) as url, lapin.connect(url) as connection:
        channel = connection.channel()
        for asked in (channel._asked_get("q", False), channel._asked_consume("q", "t", False, False, None)[1]):
            fails(lapin.Timeout, lambda: connection._ask(asked, 0.0))
            channel.queue_declare("q")
            while connection.turn(0.2):
                pass


@test
def multiple_settles_nothing_that_nobody_has_seen():
    def script(peer):
        peer.open()
        peer.channel(1)
        peer.consume(1, "a")
        peer.consume(1, "b")
        peer.send(b"".join(scripted.deliver(1, "ab"[tag % 2], tag, b"%d" % tag) for tag in range(1, 7)))
        assert peer.expect(1, 60, 80) == struct.pack(">QB", 2, 0)
        peer.expect(1, 60, 30)
        peer.send(scripted.method(1, 60, 31, scripted.short_text("b")))
        assert [peer.expect(1, 60, 90)[7] for _ in range(3)] == [1, 3, 5]
        assert peer.expect(1, 60, 80) == struct.pack(">QB", 4, 1)
        peer.get(1, 7, b"got")
        peer.close()
    with Broker(script) as url, lapin.connect(url) as connection:
        channel = connection.channel()
        a, b = channel.consume("q", tag="a"), channel.consume("q", tag="b")
        first, second = a.next(5), a.next(5)
        fails(lapin.Refused, lambda: second.ack(multiple=True), cause="MultipleRefused")
        fails(lapin.Refused, lambda: second.nack(multiple=True), cause="MultipleRefused")
        assert first.ack()
        b.cancel()
        assert second.ack(multiple=True)
        fails(lapin.Refused, lambda: channel.get("q").ack(multiple=True), cause="MultipleRefused")


@test
def a_channel_that_settles_by_tags_holds_no_settled_message():
    def script(peer):
        peer.open()
        peer.channel(1)
        peer.consume(1, "t")
        peer.send(b"".join(scripted.deliver(1, "t", tag, b"%d" % tag) for tag in range(1, 8)))
        assert peer.expect(1, 60, 80) == struct.pack(">QB", 2, 1)
        assert peer.expect(1, 60, 90) == struct.pack(">QB", 3, 0)
        assert peer.expect(1, 60, 120) == struct.pack(">QB", 4, 2)
        assert peer.expect(1, 60, 80) == struct.pack(">QB", 5, 0)
        peer.expect(1, 60, 30)
        peer.send(scripted.method(1, 60, 31, scripted.short_text("t")))
        assert peer.expect(1, 60, 90) == struct.pack(">QB", 7, 1)
        peer.get(1, 9, b"got")
        assert peer.expect(1, 60, 80) == struct.pack(">QB", 9, 0)
        peer.channel(2)
        peer.close()
    with within(30), Broker(script) as url, lapin.connect(url) as connection:
        channel = connection.channel(by_tag=True)
        consumer = channel.consume("q")
        came = [consumer.next(5) for _ in range(6)]
        assert channel.ack(2, multiple=True) and not channel.ack(1) and not channel.ack(2)
        assert channel.reject(3, requeue=False) and channel.nack(4) and came[4].ack() and not channel.ack(5) and not channel.ack(7)
        consumer.cancel()
        assert channel.get("q").body == b"got" and channel.ack(9) and list(channel._given) == [6]
        fails(TypeError, lambda: channel.ack("6"))
        fails(ValueError, lambda: connection.channel().ack(6))


@test
def a_run_ends_as_its_callbacks_say():
    def script(peer):
        peer.open()
        peer.channel(1)
        peer.consume(1, "t")
        peer.send(b"".join(scripted.deliver(1, "t", tag, b"%d" % tag) for tag in range(1, 4)))
        assert [peer.expect(1, 60, 80)[7] for _ in range(2)] == [1, 3]
        peer.send(scripted.channel_close(1, 404, "NOT_FOUND - gone", (60, 20)))
        peer.expect(1, 20, 41)
        peer.close()
    with Broker(script) as url, lapin.connect(url) as connection:
        def work(message):
            if message.body == b"2":
                raise KeyError("mine")
            message.ack()
            connection.stop()
        connection.channel().consume("q", work)
        connection.run(5)
        fails(KeyError, lambda: connection.run(5))
        connection.run(5)
        assert "NOT_FOUND - gone" in str(fails(lapin.CallFailed, lambda: connection.run(5), code=404))


@test
def a_message_whose_key_is_no_text_reaches_its_user():
    def script(peer):
        peer.open()
        peer.channel(1)
        peer.consume(1, "t")
        peer.send(scripted.deliver(1, "t", 1, b"body", key=b"caf\xe9"))
        assert peer.expect(1, 60, 80) == struct.pack(">QB", 1, 0)
        peer.close()
    with Broker(script) as url, lapin.connect(url) as connection:
        message = connection.channel().consume("q").next(5)
        assert message.body == b"body" and message.routing_key == "caf?" and message.ack()


@rabbit
def rabbitmq_gives_back_what_a_cancelled_consumer_had(url):
    with lapin.connect(url) as connection, lapin.connect(url) as other:
        channel, watcher = connection.channel(confirms=True), other.channel()
        channel.queue_declare("check.cancel")
        assert all([it.wait() for it in [channel.publish("", "check.cancel", b"%d" % at) for at in range(20)]])
        consumer = channel.consume("check.cancel")
        assert consumer.next(5).ack()
        connection.turn(0.1)
        consumer.cancel()
        channel.queue_declare("check.cancel", passive=True)
        assert [int(watcher.get("check.cancel", no_ack=True).body) for _ in range(19)] == list(range(1, 20))
        watcher.queue_delete("check.cancel")


@test
def a_run_ends_with_its_last_consumer_or_its_connection():
    def script(peer):
        peer.open()
        peer.channel(1)
        peer.consume(1, "t")
        peer.send(scripted.method(1, 60, 30, scripted.short_text("t") + b"\x01"))  # its queue was deleted
        peer.consume(1, "u")
        peer.send(scripted.deliver(1, "u", 1, b"m"))
        peer.expect(1, 60, 80)
        peer.declare(1, "within")
        peer.close()
    with within(20), Broker(script) as url, lapin.connect(url) as connection:
        channel = connection.channel()
        gone = channel.consume("q", print)
        connection.run()
        assert not gone.is_active

        def work(message):
            assert message.ack() and channel.queue_declare("within").name == "within"
            connection.close()
        channel.consume("q", work)
        connection.run()
        assert not connection.is_open


@test
def a_connection_that_is_dropped_closes_its_socket():
    def script(peer):
        try:
            peer.open()
            peer.channel(1)
            peer.frame()
        except (HungUp, ConnectionError):
            pass
    before = len(os.listdir("/proc/self/fd"))
    with within(30), Broker(script, many=True) as url:
        for _ in range(20):
            lapin.connect(url).channel()
        for _ in range(100):
            gc.collect()  # again and again: it does nothing while another thread collects
            if len(os.listdir("/proc/self/fd")) <= before + 2:
                break
            time.sleep(0.05)
        assert len(os.listdir("/proc/self/fd")) <= before + 2


@test
def a_large_message_is_held_a_few_times_at_most():
    body = bytes(range(256)) * (1 << 15)

    def script(peer):
        peer.open(frame_max=131072)
        peer.channel(1)
        peer.get(1, 1, body)
        peer.expect(1, 60, 80)
        peer.consume(1, "t")
        peer.send(scripted.deliver(1, "t", 2, body))
        peer.expect(1, 60, 80)
        peer.close()
    with within(60), Broker(script) as url, lapin.connect(url, heartbeat=0) as connection:
        channel, before = connection.channel(), resource.getrusage(resource.RUSAGE_SELF).ru_maxrss
        for take in (lambda: channel.get("q"), lambda: channel.consume("q").next(20)):
            message = take()
            assert message.body == body and message.ack()
        peak = (resource.getrusage(resource.RUSAGE_SELF).ru_maxrss - before) * 1024
        assert peak < 16 * len(body), f"{peak / len(body):.1f} times its length"

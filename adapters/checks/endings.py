"""Ends: closes of both sides, cut connections, garbage, silence, and what each publish is told."""
import random
import struct
import time

import lapin
import scripted
from checks.common import confirms, fails, rabbit, test
from scripted import Broker, HungUp


@test
def a_channel_that_the_broker_closes_ends_alone():
    def script(peer):
        peer.open()
        peer.channel(1)
        peer.channel(2)
        peer.expect(1, 50, 10)
        peer.send(scripted.channel_close(1, 404, "NOT_FOUND"))
        peer.expect(1, 20, 41)
        peer.declare(2, "q")
        peer.close()
    with Broker(script) as url, lapin.connect(url) as connection:
        one, two = connection.channel(), connection.channel()
        fails(lapin.CallFailed, lambda: one.queue_declare("none", passive=True), cause="ProtocolError", code=404)
        assert not one.is_open and two.is_open
        fails(lapin.Refused, lambda: one.publish("", "q", b"x"), cause="InvalidChannelState")
        two.queue_declare("q")


@test
def a_content_on_a_channel_that_is_closed_is_passed_over():
    def script(peer):
        peer.open()
        peer.channel(1)
        peer.channel(2)
        peer.consume(1, "t")
        peer.send(scripted.channel_close(1, 406) + scripted.deliver(1, "t", 1, bytes(10_000)) + scripted.returned(1, "k", b"r"), pieces=11)
        peer.expect(1, 20, 41)
        peer.declare(2, "q")
        peer.close()
    with Broker(script) as url, lapin.connect(url) as connection:
        one, two = connection.channel(), connection.channel()
        consumer = one.consume("q")
        fails(lapin.CallFailed, lambda: consumer.next(30), code=406)
        assert two.queue_declare("q").name == "q"


@test
def an_unexpected_frame_closes_the_connection():
    def script(peer):
        confirms(peer)
        peer.expect_publish(1)
        peer.send(scripted.method(3, 60, 21, scripted.short_text("t")))
        fields = peer.expect(0, 10, 50)
        assert struct.unpack(">H", fields[:2])[0] == 505
        peer.send(scripted.method(0, 10, 51))
    with Broker(script) as url, lapin.connect(url) as connection:
        channel = connection.channel(confirms=True)
        fails(lapin.CallFailed, lambda: channel.publish("", "q", b"x").wait(30), cause="ProtocolError", code=505)
        assert not connection.is_open


@test
def a_close_of_the_broker_ends_all():
    def script(peer):
        confirms(peer)
        peer.expect_publish(1)
        peer.send(scripted.connection_close(320, "CONNECTION_FORCED"))
        peer.expect(0, 10, 51)
    with Broker(script) as url, lapin.connect(url) as connection:
        channel = connection.channel(confirms=True)
        fails(lapin.CallFailed, lambda: channel.publish("", "q", b"x").wait(30), cause="ProtocolError", code=320)
        fails(lapin.Error, lambda: channel.queue_declare("q"))


@test
def a_cut_connection_gives_each_publish_its_end():
    def script(peer):
        confirms(peer)
        peer.expect_publish(1)
        peer.expect_publish(1)
        peer.send(scripted.ack(1, 1))
    with Broker(script) as url, lapin.connect(url) as connection:
        channel = connection.channel(confirms=True)
        given = [channel.publish("", "q", b"x") for _ in range(3)]
        assert given[0].wait(30)
        for confirm in given[1:]:
            fails(lapin.CallFailed, lambda confirm=confirm: confirm.wait(30), cause="ConnectionLost")
        fails(lapin.ConnectionLost, connection.turn)
        fails(lapin.Refused, lambda: channel.publish("", "q", b"x"))


@test
def garbage_is_the_end_of_a_connection():
    draw = random.Random(3)
    for garbage in (b"\x01\x00\x01\x00\x00\x00\x04\x00\x3c\x00\x50\x00", b"\xff" * 64, scripted.frame(1, 1, b"\x00\x3c"), scripted.frame(9, 1, b""),
                    b"\x01\x00\x01\xff\xff\xff\xff", scripted.frame(3, 1, bytes(5000)), scripted.method(1, 60, 60, b"\xff"), draw.randbytes(4096)):
        def script(peer, garbage=garbage):
            confirms(peer)
            peer.expect_publish(1)
            try:
                peer.send(garbage)
                peer._want(1 << 20)
            except (HungUp, ConnectionError):
                pass
        with Broker(script) as url, lapin.connect(url) as connection:
            channel = connection.channel(confirms=True)
            fails(lapin.CallFailed, lambda channel=channel: channel.publish("", "q", b"x").wait(30))


@test
def heartbeats_go_out_and_a_silent_broker_is_lost():
    def script(peer):
        peer.open(heartbeat=1)
        beats = 0
        try:
            while True:
                kind, channel, payload = peer.frame(heartbeats=True)
                assert (kind, channel, payload) == (8, 0, b"")
                beats += 1
        except HungUp:
            assert beats >= 1, beats
    with Broker(script) as url, lapin.connect(url) as connection:
        start = time.monotonic()
        assert "silent" in str(fails(lapin.ConnectionLost, lambda: connection.run(60)))
        assert 1.9 < time.monotonic() - start < 30


@test
def a_blocked_broker_is_heard():
    def script(peer):
        confirms(peer)
        peer.send(scripted.method(0, 10, 60, scripted.short_text("low on memory")))
        peer.expect_publish(1)
        peer.send(scripted.method(0, 10, 61) + scripted.frame(8, 0, b"") + scripted.ack(1, 1), pieces=1)
        peer.close()
    with Broker(script) as url, lapin.connect(url) as connection:
        channel = connection.channel(confirms=True)
        while not connection.is_blocked:
            connection.turn(1)
        assert channel.publish("", "q", b"x").wait(30) and not connection.is_blocked


@test
def channel_numbers_come_again_and_end_at_the_limit():
    def script(peer):
        peer.open(channel_max=2)
        peer.channel(1)
        peer.channel(2)
        peer.expect(1, 20, 40)
        peer.send(scripted.method(1, 20, 41))
        peer.channel(1)
        peer.close()
    with Broker(script) as url, lapin.connect(url) as connection:
        with connection.channel():
            connection.channel()
            fails(lapin.Refused, connection.channel)
        assert connection.channel().number == 1


@test
def numbers_that_the_broker_closed_come_back():
    def script(peer):
        peer.open(channel_max=2)
        peer.channel(1)
        for _ in range(5):
            peer.channel(2)
            peer.consume(2, "t")
            peer.expect(2, 50, 10)
            peer.send(scripted.channel_close(2, 404) + scripted.deliver(2, "t", 1, bytes(3000)))
            peer.expect(2, 20, 41)
            peer.expect(2, 20, 10)
            peer.send(scripted.deliver(2, "t", 2, bytes(3000)) + scripted.method(2, 20, 11, scripted.long_text(b"")))  # it was on its way
            peer.expect(2, 20, 40)
            peer.send(scripted.method(2, 20, 41))
        peer.close()
    with Broker(script) as url, lapin.connect(url) as connection:
        connection.channel()
        for _ in range(5):
            channel = connection.channel()
            channel.consume("q")
            fails(lapin.CallFailed, lambda: channel.queue_declare("none", passive=True), code=404)
            connection.channel().close()


@test
def a_closed_channel_leaves_its_numbers_next_holder_alone():
    def script(peer):
        peer.open(channel_max=1)
        for _ in range(2):
            peer.channel(1, confirms=True)
            peer.consume(1, "t")
            peer.send(scripted.deliver(1, "t", 1, b"m"))
            if not _:
                peer.expect(1, 20, 40)
                peer.send(scripted.method(1, 20, 41))
        assert peer.expect_publish(1)[1] == b"new"
        peer.send(scripted.ack(1, 1))
        peer.close()
    with Broker(script) as url, lapin.connect(url) as connection:
        old = connection.channel(confirms=True)
        consumer = old.consume("q")
        message = consumer.next(5)
        old.close()
        new = connection.channel(confirms=True)
        new.consume("q")
        assert new.number == old.number and new.is_open and not old.is_open
        for call in (lambda: old.publish("", "q", b"old"), lambda: old.queue_declare("q"), lambda: old.get("q"), lambda: old.consume("q"),
                     lambda: old.wait_for_confirms(1)):
            fails(lapin.Refused, call, cause="InvalidChannelState")
        assert not message.ack() and consumer.next(1) is None
        old.close()
        consumer.cancel()
        assert new.is_open and new.publish("", "q", b"new").wait(5)


@test
def an_error_of_the_broker_is_told_in_its_words():
    words = "PRECONDITION_FAILED - inequivalent arg 'durable' for queue 'q'"

    def script(peer):
        peer.open(channel_max=1)
        for text in (words, "PRECONDITION_FAILED - another"):
            peer.channel(1, confirms=True)
            assert peer.expect_publish(1)[1] == b"x"
            peer.expect(1, 50, 10)
            peer.send(scripted.channel_close(1, 406, text, (50, 10)))
            peer.expect(1, 20, 41)
        peer.channel(1)
        peer.expect(1, 50, 10)
        peer.send(scripted.connection_close(320, "CONNECTION_FORCED - by the operator"))
        peer.expect(0, 10, 51)
    with Broker(script) as url, lapin.connect(url) as connection:
        one = connection.channel(confirms=True)
        confirm = one.publish("", "q", b"x")
        error = fails(lapin.CallFailed, lambda: one.queue_declare("q", durable=True), code=406)
        assert str(error) == f"ProtocolError 406 at queue.declare: {words}" and error.reason == (406, 50, 10, words), str(error)
        assert words in str(fails(lapin.Refused, lambda: one.publish("", "q", b"x")))
        two = connection.channel(confirms=True)
        two.publish("", "q", b"x")
        assert "another" in str(fails(lapin.CallFailed, lambda: two.queue_declare("q"), code=406))
        assert words in str(fails(lapin.CallFailed, confirm.poll, code=406)), "the reason of its own opening"
        three = connection.channel()
        assert "by the operator" in str(fails(lapin.CallFailed, lambda: three.queue_declare("q"), code=320))
        assert "by the operator" in str(fails(lapin.Error, connection.channel))


@test
def a_reply_text_that_is_cut_within_a_letter_ends_its_channel_alone():
    def script(peer):
        peer.open()
        peer.channel(1)
        peer.expect(1, 50, 10)
        peer.send(scripted.channel_close(1, 404, b"NOT_FOUND - no queue 'caf\xc3", (50, 10)))  # as RabbitMQ does at 255 octets
        peer.expect(1, 20, 41)
        peer.channel(2)
        peer.close()
    with Broker(script) as url, lapin.connect(url) as connection:
        assert "no queue 'caf" in str(fails(lapin.CallFailed, lambda: connection.channel().queue_declare("q", passive=True), code=404))
        assert connection.channel().is_open


@test
def outcomes_are_told_after_a_close():
    def script(peer):
        confirms(peer)
        assert [peer.expect_publish(1)[1] for _ in range(2)] == [b"0", b"1"]
        peer.send(scripted.ack(1, 1))
        peer.close()
    with Broker(script) as url, lapin.connect(url) as connection:
        channel = connection.channel(confirms=True)
        given = [channel.publish("", "q", b"%d" % at) for at in range(2)]
        assert connection.turn(5), "the ack has come before the close is called"
        connection.close()
        assert given[0].poll() and given[0].wait(1)
        for call in (given[1].poll, given[1].wait, connection.channel, lambda: channel.publish("", "q", b"x"), lambda: connection.turn(1), connection.flush):
            fails(lapin.Error, call)
        assert not channel.is_open and not connection.is_open


@rabbit
def rabbitmq_tells_its_errors_in_its_words(url):
    with lapin.connect(url) as connection:
        connection.channel().queue_declare("check.words", auto_delete=True)
        calls = {"inequivalent arg 'durable'": lambda it: it.queue_declare("check.words", durable=True, auto_delete=True),
                 "no queue 'none'": lambda it: it.queue_declare("none", passive=True), "reserved prefix": lambda it: it.queue_declare("amq.x"),
                 "no exchange 'nope'": lambda it: it.publish("nope", "", b"").wait(5),
                 "user_id": lambda it: it.publish("", "q", b"", user_id="somebody").wait(5)}
        for words, call in calls.items():
            error = fails(lapin.CallFailed, lambda: call(connection.channel(confirms=True)))
            assert words in str(error) and error.reason.code == error.code, str(error)
        connection.channel().queue_delete("check.words")
        fails(lapin.CallFailed, lambda: connection.channel().exchange_declare("x", "nosuch"), code=503)

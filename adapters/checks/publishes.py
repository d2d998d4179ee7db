"""Publishes and their confirms: acks, nacks, messages that come back, limits, and what leaves when."""
import time

import lapin
import scripted
from checks.common import confirms, fails, test
from scripted import Broker


@test
def acks_and_nacks_are_each_about_their_publish():
    def script(peer):
        confirms(peer)
        peer.declare(1, "q")
        got = [peer.expect_publish(1)[1] for _ in range(6)]
        assert got == [b"0", b"1", b"2", b"3", b"4", b"5"], got
        peer.send(scripted.nack(1, 2) + scripted.ack(1, 4, multiple=1) + scripted.nack(1, 6) + scripted.ack(1, 5), pieces=3)
        peer.close()
    with Broker(script) as url, lapin.connect(url) as connection:
        channel = connection.channel(confirms=True)
        assert channel.queue_declare("q") == ("q", 0, 0)
        given = [channel.publish("", "q", b"%d" % number) for number in range(6)]
        assert given[0].poll() is None
        assert [confirm.wait(30).kind for confirm in given] == ["ack", "nack", "ack", "ack", "ack", "nack"]
        assert [bool(confirm.poll()) for confirm in given] == [True, False, True, True, True, False]


@test
def a_message_comes_back_with_its_ack():
    def script(peer):
        confirms(peer)
        key, body = peer.expect_publish(1)
        peer.send(scripted.returned(1, key, body) + scripted.ack(1, 1), pieces=5)
        peer.close()
    with Broker(script) as url, lapin.connect(url) as connection:
        channel = connection.channel(confirms=True)
        outcome = channel.publish("", "nowhere", b"lost?" * 2000, mandatory=True).wait(30)
        assert not outcome and outcome.kind == "ack" and outcome.returned.body == b"lost?" * 2000 and outcome.returned.reply_code == 312


@test
def without_confirms_none_are_asked_for():
    def script(peer):
        peer.open()
        peer.channel(1)
        key, body = peer.expect_publish(1)
        peer.send(scripted.returned(1, key, body))
        peer.declare(1, "q")
        peer.close()
    with Broker(script) as url, lapin.connect(url) as connection:
        channel = connection.channel()
        confirm = channel.publish("", "nowhere", b"x", mandatory=True)
        channel.queue_declare("q")
        assert confirm.wait(30).kind == "notrequested"
        assert [it.body for it in channel.wait_for_confirms()] == [b"x"]


@test
def a_limit_holds_publishes_back():
    def script(peer):
        confirms(peer)
        for tag in range(1, 8):
            assert peer.expect_publish(1)[1] == b"%d" % tag
            if tag >= 2:
                peer.sock.settimeout(0.05)
                try:
                    assert not peer.sock.recv(1), "a third publish is outstanding"
                except TimeoutError:
                    pass
                peer.sock.settimeout(60)
                peer.send(scripted.ack(1, tag - 1))
        peer.send(scripted.ack(1, 7))
        peer.close()
    with Broker(script) as url, lapin.connect(url) as connection:
        channel = connection.channel(confirms=True, limit=2)
        assert all([confirm.wait(30) for confirm in [channel.publish("", "q", b"%d" % tag) for tag in range(1, 8)]])


@test
def a_begun_publish_is_whole_before_a_close_is_answered():
    def script(peer):
        confirms(peer)
        peer.data = peer._want(1) + peer.data
        peer.send(scripted.channel_close(1, 406, "PRECONDITION_FAILED"))
        time.sleep(0.2)
        assert len(peer.expect_publish(1)[1]) == 3_000_000
        peer.expect(1, 20, 41)
        peer.close()
    with Broker(script) as url, lapin.connect(url) as connection:
        channel = connection.channel(confirms=True)
        confirm = channel.publish("", "q", bytes(3_000_000))
        assert fails(lapin.CallFailed, lambda: confirm.wait(30)).code == 406


@test
def bodies_are_cut_at_the_greatest_frame():
    sizes = [0, 1, 4087, 4088, 4089, 8176, 8177, 100_000]

    def script(peer):
        confirms(peer, frame_max=4096)
        for tag, size in enumerate(sizes, 1):
            assert len(peer.expect_publish(1)[1]) == size
            peer.send(scripted.ack(1, tag))
        peer.close()
    with Broker(script) as url, lapin.connect(url) as connection:
        channel = connection.channel(confirms=True)
        assert all([channel.publish("", "q", bytes(size)).wait(30) for size in sizes])


@test
def too_large_properties_are_refused_before_anything_leaves():
    def script(peer):
        confirms(peer, frame_max=4096)
        assert peer.expect_publish(1)[1] == b"small"
        peer.send(scripted.ack(1, 1))
        peer.close()
    with Broker(script) as url, lapin.connect(url) as connection:
        channel = connection.channel(confirms=True)
        fails(ValueError, lambda: channel.publish("", "q", b"large", headers={"x": "y" * 5000}))
        fails(ValueError, lambda: channel.publish("", "k" * 256, b"x"))
        fails(TypeError, lambda: channel.publish("", "q", b"x", colour="red"))
        assert channel.publish("", "q", b"small").wait(30)

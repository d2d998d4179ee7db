"""Messages that come back: each goes to the publish that it equals, whatever the order of settlements, and to mandatory ones alone."""
import struct

import lapin
import scripted
from checks.common import confirms, rabbit, test
from scripted import Broker


def told(confirms_):
    """Of each publish its kind, and the body that came back."""
    outcomes = [it.wait(5) for it in confirms_]
    return [(it.kind, it.returned and it.returned.body) for it in outcomes]


@test
def returned_messages_go_to_their_own_publishes():
    def script(peer):
        confirms(peer)
        given = [peer.expect_publish(1) for _ in range(6)]
        back = [scripted.returned(1, *given[at]) for at in (1, 3, 5)]
        peer.send(back[0] + scripted.ack(1, 2) + back[1] + back[2] + scripted.ack(1, 6) + scripted.nack(1, 5) + scripted.ack(1, 4, multiple=1), pieces=3)
        peer.close()
    with Broker(script) as url, lapin.connect(url) as connection:
        channel = connection.channel(confirms=True)
        given = [channel.publish("", "nobody" if at % 2 else "q", b"%d" % at, mandatory=True) for at in range(6)]
        assert told(given) == [("ack", None), ("ack", b"1"), ("ack", None), ("ack", b"3"), ("nack", None), ("ack", b"5")], told(given)
        assert not channel.wait_for_confirms(5)


@test
def only_mandatory_publishes_take_a_returned_message():
    def script(peer):
        confirms(peer)
        given = [peer.expect_publish(1) for _ in range(3)]
        peer.send(scripted.returned(1, *given[1]) + scripted.ack(1, 3, multiple=1))
        peer.close()
    with Broker(script) as url, lapin.connect(url) as connection:
        channel = connection.channel(confirms=True)
        given = [channel.publish("", "q", b"same", mandatory=at == 1) for at in range(3)]
        assert told(given) == [("ack", None), ("ack", b"same"), ("ack", None)]


@test
def returned_messages_are_told_apart_by_their_properties():
    def named(name):
        return struct.pack(">H", 0x80) + scripted.short_text(name)

    def script(peer):
        confirms(peer)
        for _ in range(4):
            peer.expect_publish(1)
        large = bytes(1000)
        peer.send(scripted.returned(1, "k", b"b", properties=named("2")) + scripted.returned(1, "k", large + b"2") + scripted.ack(1, 4, multiple=1))
        peer.close()
    with Broker(script) as url, lapin.connect(url) as connection:
        channel, large = connection.channel(confirms=True), bytes(1000)
        given = [channel.publish("", "k", body, mandatory=True, **named) for body, named in
                 ((b"b", {"message_id": "1"}), (b"b", {"message_id": "2"}), (large + b"1", {}), (large + b"2", {}))]
        assert told(given) == [("ack", None), ("ack", b"b"), ("ack", None), ("ack", large + b"2")]


@test
def a_message_that_a_broker_changed_comes_back_to_its_publish():
    changed = struct.pack(">H", 0x2000) + scripted.long_text(scripted.short_text("stamp") + b"I\x00\x00\x00\x07")

    def script(peer):
        confirms(peer)
        given = [peer.expect_publish(1) for _ in range(2)]
        peer.send(scripted.returned(1, *given[1], properties=changed) + scripted.ack(1, 2, multiple=1))
        peer.close()
    with Broker(script) as url, lapin.connect(url) as connection:
        channel = connection.channel(confirms=True)
        given = [channel.publish("", "k", b"%d" % at, mandatory=True) for at in range(2)]
        assert told(given) == [("ack", None), ("ack", b"1")] and given[1].poll().returned.properties == {"headers": {"stamp": 7}}


@test
def a_forgotten_publish_takes_nobodys_message():
    def script(peer):
        confirms(peer)
        given = [peer.expect_publish(1) for _ in range(3)]
        peer.send(scripted.returned(1, *given[1]) + scripted.returned(1, *given[2]) + scripted.ack(1, 3, multiple=1))
        peer.close()
    with Broker(script) as url, lapin.connect(url) as connection:
        channel = connection.channel(confirms=True)
        given = [channel.publish("", "k", b"%d" % at, mandatory=at > 0) for at in range(3)]
        given[0].forget()
        given[1].forget()
        assert told(given[2:]) == [("ack", b"2")]
        assert [it.body for it in channel.wait_for_confirms(5)] == [b"1"]


@test
def an_outcome_is_matched_by_its_text():
    def script(peer):
        confirms(peer)
        key, body = [peer.expect_publish(1) for _ in range(3)][1]
        peer.send(scripted.ack(1, 1) + scripted.returned(1, key, body) + scripted.ack(1, 2) + scripted.nack(1, 3))
        peer.close()
    with Broker(script) as url, lapin.connect(url) as connection:
        channel, said = connection.channel(confirms=True), []
        for confirm in [channel.publish("", "k", b"%d" % at, mandatory=True) for at in range(3)]:
            match confirm.wait(5):
                case "ack":
                    said.append("done")
                case "nack":
                    said.append("refused")
                case outcome:
                    said.append(str(outcome))
        assert said == ["done", "ack, returned: NO_ROUTE", "refused"], said


@rabbit
def rabbitmq_returns_go_to_their_own(url):
    with lapin.connect(url) as connection:
        for is_durable, count in ((False, 2000), (True, 400)):
            channel = connection.channel(confirms=True)
            queue = channel.queue_declare("check.returns", durable=is_durable, arguments={"x-max-length": 1000}).name
            for share, mandatory in ((2, lambda at: True), (10, lambda at: True), (2, lambda at: at % 2 == 1)):
                given = [channel.publish("", "nobody" if at % share == share - 1 else queue, b"%d" % at, mandatory=mandatory(at),
                                         delivery_mode=2 if is_durable else 1) for at in range(count)]
                wrong = [at for at, it in enumerate(told(given)) if it != ("ack", b"%d" % at if at % share == share - 1 else None)]
                assert not wrong, f"{len(wrong)} outcomes that aren't the message's own: {wrong[:5]}"
            channel.queue_delete(queue)
            channel.close()


@rabbit
def rabbitmq_who_resends_by_outcome_loses_nothing(url):
    with lapin.connect(url) as connection:
        channel, have = connection.channel(confirms=True), {}
        channel.exchange_declare("check.resend", auto_delete=True)
        channel.queue_bind(channel.queue_declare("check.even").name, "check.resend", "even")
        work = [(at, "odd" if at % 2 else "even") for at in range(3000)]
        made = [(*it, channel.publish("check.resend", it[1], b"%d" % it[0], mandatory=True, message_id=str(it[0]))) for it in work]
        again = [(at, key) for at, key, confirm in made if not confirm.wait(30)]
        channel.queue_bind(channel.queue_declare("check.odd").name, "check.resend", "odd")
        assert all([it.wait(30) for it in [channel.publish("check.resend", key, b"%d" % at, mandatory=True, message_id=str(at)) for at, key in again]])
        for queue in ("check.even", "check.odd"):
            while (message := channel.get(queue, no_ack=True)) is not None:
                have[int(message.body)] = have.get(int(message.body), 0) + 1
            channel.queue_delete(queue)
        assert have == {at: 1 for at, _ in work}, f"{len(work) - len(have)} lost, {sum(it > 1 for it in have.values())} twice"

"""Values as octets, both ways: each type that RabbitMQ knows, as other clients write it; and octets that are none, which lose no message."""
import contextlib
import datetime
import decimal
import importlib
import struct
import subprocess
import sys

import lapin
import scripted
from checks.common import confirms, fails, rabbit, test, within
from lapin import _asks, _octets
from scripted import Broker, long_text, short_text

UTC = datetime.timezone.utc
TIME = datetime.datetime(2026, 1, 2, 3, 4, 5, tzinfo=UTC)
#: What is written, with its octets by the standard's table of types.
WRITTEN = [
    (True, b"t\x01"), (False, b"t\x00"), (0, b"I\x00\x00\x00\x00"), (-3, b"I\xff\xff\xff\xfd"), ((1 << 31) - 1, b"I\x7f\xff\xff\xff"),
    (1 << 31, b"l\x00\x00\x00\x00\x80\x00\x00\x00"), (-(1 << 63), b"l\x80" + bytes(7)), ((1 << 63) - 1, b"l\x7f" + b"\xff" * 7),
    (1.5, b"d\x3f\xf8" + bytes(6)), (-0.1, b"d" + struct.pack(">d", -0.1)), (decimal.Decimal("3.14"), b"D\x02\x00\x00\x01\x3a"),
    (decimal.Decimal("-7"), b"D\x00\xff\xff\xff\xf9"), ("", b"S\x00\x00\x00\x00"), ("żółć", b"S\x00\x00\x00\x08" + "żółć".encode()),
    (b"\xff\x00", b"x\x00\x00\x00\x02\xff\x00"), (TIME, b"T" + struct.pack(">Q", int(TIME.timestamp()))), (None, b"V"), ({}, b"F\x00\x00\x00\x00"),
    ([], b"A\x00\x00\x00\x00"), ([None, [True], {"k": None}], b"A\x00\x00\x00\x10V" + b"A\x00\x00\x00\x02t\x01" + b"F\x00\x00\x00\x03\x01kV"),
]
#: What is read alone.
READ = [
    (b"b\xff", -1), (b"B\xff", 255), (b"s\xff\xfe", -2), (b"U\xff\xfe", -2), (b"u\xff\xfe", 65534), (b"i\xff\xff\xff\xff", (1 << 32) - 1),
    (b"L\xff\xff\xff\xff\xff\xff\xff\xfe", -2), (b"f\x3f\xc0\x00\x00", 1.5), (b"t\x02", True), (b"S\x00\x00\x00\x01\xe9", b"\xe9"),
    (b"T" + b"\x7f" + b"\xff" * 7, (1 << 63) - 1), (b"D\x00\x00\x00\x00\x05", decimal.Decimal(5)), (b"D\xff\x00\x00\x00\x01", decimal.Decimal(1).scaleb(-255)),
]
#: Lists of properties that are none, with a word of what is said of them.
NONE = [
    (b"", "flags"), (b"\x20", "flags"), (b"\x00\x02", "isn't known"), (b"\x00\x01\x00\x04", "isn't known"), (b"\x00\x00\x00", "behind the last"),
    (b"\x10\x00", "delivery_mode"), (b"\x00\x40\x01", "timestamp"), (b"\x04\x00\x05ab", "correlation_id"), (b"\x20\x00\x00\x00\x00\x01\x01", "headers"),
    (b"\x20\x00\x00\x00\x00\x02\x01k", "headers: a key without"), (b"\x20\x00\x00\x00\x00\x03\x01kZ", "headers: no value"),
    (b"\x20\x00\x00\x00\x00\x09\x01kS\x00\x00\x00\x03ab", "headers"), (b"\x20\x00\x00\x00\x00\x08\x01kI\x00\x00\x00\x01\x01", "headers"),
    (b"\x20\x00\x00\x00\x00\x0b\x01kA\x00\x00\x00\x01SVVV", "headers"), (b"\x20\x00\xff\xff\xff\xff\x01kV", "headers"),
]


def header_of(value):
    """A list of properties whose headers have this value, of its octets."""
    return b"\x20\x00" + long_text(short_text("k") + value)


@contextlib.contextmanager
def other(name):
    """Another client's module, where Debian's Python has it; None elsewhere."""
    place = "/usr/lib/python3/dist-packages"
    sys.path.append(place)
    try:
        yield importlib.import_module(name)
    except ImportError:
        print(f"{name}: not compared with, since it isn't here")
        yield None
    finally:
        sys.path.remove(place)


@test
def each_value_is_its_octets_both_ways():
    for value, octets in WRITTEN:
        assert _octets.table_of("t", {"k": value}) == long_text(short_text("k") + octets), value
        assert _octets.properties_of({"headers": {"k": value}}) == header_of(octets)
    for value, octets in WRITTEN + [(value, octets) for octets, value in READ]:
        found = _octets.read_properties(header_of(octets))["headers"]["k"]
        assert (found, type(found)) == (value, type(value)), (octets, found)
        assert _octets.read_properties(header_of(b"A" + long_text(octets * 2)))["headers"]["k"] == [value] * 2
        assert _octets.read_properties(header_of(b"F" + long_text(short_text("a") + octets)))["headers"]["k"] == {"a": value}
    for text, wanted in (("1.50", "1.50"), ("1E+3", "1000"), ("0.00", "0.00"), ("-1.0000", "-1.0000"), ("0E+999", "0")):
        found = _octets.read_properties(_octets.properties_of({"headers": {"k": decimal.Decimal(text)}}))
        assert str(found["headers"]["k"]) == wanted, (text, found)
    for text in ("1" * 5000, "1E+9999999", "1E-256", "NaN", "Infinity"):
        fails(ValueError, lambda text=text: _octets.properties_of({"headers": {"k": decimal.Decimal(text)}}))
    hour = datetime.timezone(datetime.timedelta(hours=1))
    assert _octets.properties_of({"timestamp": TIME.astimezone(hour)}) == _octets.properties_of({"timestamp": int(TIME.timestamp())}) == b"\x00\x40" + WRITTEN[15][1][1:]


@test
def values_are_written_as_other_clients_do():
    values = [value for value, _ in WRITTEN] + [{"deep": {"a": {"b": [1, [2, {"c": None}], "x"]}}, "list": [1, "x", None, True, []]}]
    with other("pika.data") as pika, other("amqp.serialization") as amqp:
        for value in values:
            mine = _octets.table_of("t", {"k": value, "żółć": 1})
            if pika and not isinstance(value, float):  # which pika has none of
                pieces = []
                pika.encode_table(pieces, {"k": value, "żółć": 1})
                assert b"".join(pieces) == mine, value
            if amqp and not isinstance(value, bytes) and not (type(value) is int and abs(value) >= 1 << 31):  # by S, and by L
                pieces = []
                amqp._write_table({"k": value, "żółć": 1}, pieces.append, [])
                assert b"".join(pieces) == mine, value
    named = {"content_type": "a/b", "content_encoding": "gzip", "headers": {"k": [1]}, "delivery_mode": 2, "priority": 9, "correlation_id": "c", "reply_to": "r",
             "expiration": "5", "message_id": "m", "timestamp": 1 << 40, "type": "t", "user_id": "u", "app_id": "a", "cluster_id": "z"}
    with other("pika.spec") as pika:
        for names in [[name] for name in named] + [list(named), list(named)[::-1], list(named)[::2]]:
            given = {name: named[name] for name in names}
            assert not pika or b"".join(pika.BasicProperties(**given).encode()) == _octets.properties_of(given), names


@test
def methods_are_as_another_client_writes_them():
    table = {"x-max-length": 5}
    with other("pika.spec") as pika:
        if not pika:
            return
        queue, exchange, basic = pika.Queue, pika.Exchange, pika.Basic
        for asked, right in (
                (_asks.queue_declare(1, "q", durable=True, auto_delete=True, arguments=table), queue.Declare(0, "q", False, True, False, True, False, table)),
                (_asks.queue_declare(1, passive=True, exclusive=True), queue.Declare(0, "", True, False, True, False, False, {})),
                (_asks.queue_bind(1, "q", "e", "k", arguments=table), queue.Bind(0, "q", "e", "k", False, table)),
                (_asks.queue_unbind(1, "q", "e", "k", arguments=table), queue.Unbind(0, "q", "e", "k", table)),
                (_asks.queue_delete(1, "q", if_empty=True), queue.Delete(0, "q", False, True, False)), (_asks.queue_purge(1, "q"), queue.Purge(0, "q", False)),
                (_asks.exchange_declare(1, "e", "topic", durable=True, internal=True), exchange.Declare(0, "e", "topic", False, True, False, True, False, {})),
                (_asks.exchange_declare(1, "e", auto_delete=True, passive=True), exchange.Declare(0, "e", "direct", True, False, True, False, False, {})),
                (_asks.exchange_delete(1, "e", if_unused=True), exchange.Delete(0, "e", True, False)),
                (_asks.exchange_bind(1, "d", "s", "k", arguments=table), exchange.Bind(0, "d", "s", "k", False, table)),
                (_asks.qos(1, 300, whole=True), basic.Qos(0, 300, True)), (_asks.recover(1), basic.Recover(True)), (_asks.cancel(1, "t"), basic.Cancel("t", False)),
                (_asks.get(1, "q", True), basic.Get(0, "q", True)), (_asks.consume(1, "q", "t", True, False, table), basic.Consume(0, "q", "t", False, True, False, False, table)),
                (_asks.consume(1, "q", "t", False, True, None), basic.Consume(0, "q", "t", False, False, True, False, {})),
                (_asks.tx_select(1), pika.Tx.Select()), (_asks.tx_commit(1), pika.Tx.Commit()), (_asks.tx_rollback(1), pika.Tx.Rollback()),
                (_asks.channel_open(1), pika.Channel.Open("")), (_asks.channel_close(1), pika.Channel.Close(200, "bye", 0, 0)),
                (_asks.connection_close(), pika.Connection.Close(200, "bye", 0, 0)), (_asks.confirm_select(1), pika.Confirm.Select(False))):
            assert asked.method == struct.pack(">I", right.INDEX) + b"".join(right.encode()), right


def echoed(lists, frame_max=131072):
    """Has messages with these lists of properties delivered, and each published again by what was read of it: what was read, and the lists that left."""
    left = []

    def script(peer):
        confirms(peer, frame_max=frame_max)
        peer.consume(1, "t")
        for tag, listed in enumerate(lists, 1):
            peer.send(scripted.deliver(1, "t", tag, b"%d" % tag, properties=listed))
            peer.expect(1, 60, 80)
            peer.expect(1, 60, 40)
            left.append(peer.frame()[2][12:])
            peer.frame()
            peer.send(scripted.ack(1, tag))
        peer.close()
    with within(60), Broker(script) as url, lapin.connect(url, heartbeat=0) as connection:
        channel, found = connection.channel(confirms=True), []
        consumer = channel.consume("q")
        for tag, _ in enumerate(lists, 1):
            message = consumer.next(20)
            assert message.body == b"%d" % tag and message.ack()
            found.append(message)
            assert channel.publish("", "q", b"again", **message.properties).wait(20)
    assert [it.properties_octets for it in found] == lists
    return [it.properties for it in found], left


@test
def properties_that_are_read_are_published_as_they_were():
    deep = b"V"
    for _ in range(40):
        deep = b"F" + long_text(short_text("k") + deep)
    large = b"S" + long_text(b"x" * 120_000)
    foreign = b"\x84\x00" + short_text(b"\xe9\xff") + short_text("żółć")
    lists = [header_of(octets) for _, octets in WRITTEN] + [header_of(deep), header_of(large), foreign, header_of(b"A" + long_text(b"V" * 100_000))]
    found, left = echoed(lists)
    assert left == lists, [at for at, pair in enumerate(zip(left, lists)) if pair[0] != pair[1]]
    value, depth = found[len(WRITTEN)]["headers"], 0
    while value is not None:
        value, depth = value["k"], depth + 1
    assert depth == 41 and found[-2] == {"content_type": b"\xe9\xff", "correlation_id": "żółć"}


@test
def what_is_no_list_of_properties_loses_no_message():
    depth = 25_000
    hostile = b"".join(b"A" + struct.pack(">I", 5 * (depth - at - 1)) for at in range(depth))
    lists = [octets for octets, _ in NONE] + [header_of(hostile), b"\x00\x00"]

    def script(peer):
        confirms(peer, frame_max=1 << 18)
        peer.consume(1, "t")
        peer.send(b"".join(scripted.deliver(1, "t", tag, b"%d" % tag, properties=listed) for tag, listed in enumerate(lists, 1)))
        assert [peer.expect(1, 60, 80) for _ in lists] == [struct.pack(">QB", tag, 0) for tag, _ in enumerate(lists, 1)]
        key, body = peer.expect_publish(1)
        peer.send(scripted.returned(1, key, body, properties=NONE[-1][0]) + scripted.ack(1, 1))
        peer.close()
    with within(60), Broker(script) as url, lapin.connect(url, frame_max=1 << 18, heartbeat=0) as connection:
        channel = connection.channel(confirms=True)
        consumer = channel.consume("q")
        for tag, listed in enumerate(lists, 1):
            message = consumer.next(20)
            assert (message.body, message.properties_octets) == (b"%d" % tag, listed)
            if tag <= len(NONE):
                error = fails(lapin.MalformedProperties, lambda: message.properties)
                assert NONE[tag - 1][1] in str(error) and error.cause == "MalformedProperties" and isinstance(error, ValueError), (listed, str(error))
            else:
                message.properties
            assert message.ack()
        outcome = channel.publish("", "k", b"b", mandatory=True).wait(20)  # a broker that returns what is no list of properties
        assert outcome.kind == "ack" and (outcome.returned or channel.wait_for_confirms(5)[0]).properties_octets == NONE[-1][0]


@test
def what_is_refused_is_named_by_its_place():
    for values, place in (({"a": {"b": {1, 2}}}, "h['a']['b'] "), ({"a": [0, {"b": object()}]}, "h['a']['b'] "), ({"n": 1 << 63}, "h['n'] "),
                          ({"ok": {"x": 1}, "a": {"b": {5: 1}}}, "a key of h['a']['b'] "), ({"a": [[float("nan")]]}, "h['a'] "), ({"a": {"\ud800": 1}}, "a key of h['a'] ")):
        assert str(fails((TypeError, ValueError), lambda: _octets.table_of("h", values))).startswith(place), place


@test
def a_table_that_no_frame_holds_is_refused():
    def script(peer):
        confirms(peer)
        assert peer.expect_publish(1)[1] == b"last"
        peer.send(scripted.ack(1, 1))
        peer.close()
    deep = None
    for _ in range(50_000):
        deep = [deep]
    with within(60), Broker(script) as url, lapin.connect(url) as connection:
        channel = connection.channel(confirms=True)
        for value in (deep, "x" * 5000):
            assert "frame" in str(fails(ValueError, lambda: channel.publish("", "q", b"", headers={"k": value})))
            assert "frame" in str(fails(ValueError, lambda: channel.queue_declare("q", arguments={"k": value})))
        assert channel.publish("", "q", b"last").wait(5)


# A client that gets a message and says by how many octets it grew.
GETTER = """
import sys, lapin
def held():
    with open("/proc/self/status") as file:
        return int(next(line for line in file if line.startswith("VmHWM")).split()[1]) * 1024
with lapin.connect(sys.argv[1], heartbeat=0) as connection:
    channel = connection.channel()
    before = held()
    message = channel.get("q") if sys.argv[2] == "get" else channel.consume("q").next(60)
    assert len(message.body) == int(sys.argv[3]) and message.body[:3] + message.body[-3:] == b"xyzzyx" and message.exchange == "" and message.ack()
    print((held() - before) / len(message.body))
"""


@test
def a_large_message_is_held_twice_at_most():
    body = b"xyz" + bytes((16 << 20) - 6) + b"zyx"
    for way in ("get", "consume"):
        def script(peer, way=way):
            peer.open(frame_max=131072)
            peer.channel(1)
            if way == "get":
                peer.get(1, 1, body)
            else:
                peer.consume(1, "t")
                peer.send(scripted.deliver(1, "t", 1, body, properties=b"\x10\x00\x02"))
            peer.expect(1, 60, 80)
            peer.close()
        with within(120), Broker(script) as url:
            times = float(subprocess.run([sys.executable, "-c", GETTER, url, way, str(len(body))], stdout=subprocess.PIPE, text=True, check=True).stdout)
        assert times < 2.5, f"{way}: {times:.2f} times its length"


@rabbit
def rabbitmq_takes_and_gives_each_value(url):
    deep = None
    for _ in range(40):
        deep = {"k": [deep]}
    headers = {f"h{at}": value for at, (value, _) in enumerate(WRITTEN)} | {"deep": deep, "large": "x" * 100_000}
    with lapin.connect(url) as connection:
        channel = connection.channel(confirms=True)
        queue = channel.queue_declare(exclusive=True, arguments={"x-max-length": 1000, "mine": 1.5, "time": TIME, "none": None, "list": [1, b"\xff"]}).name
        channel.exchange_declare("check.values", "headers", auto_delete=True)  # whose broker reads them
        channel.queue_bind(queue, "check.values", arguments={"h10": decimal.Decimal("3.14"), "h8": 1.5, "x-match": "all"})
        given = {"headers": headers, "correlation_id": b"\xe9", "delivery_mode": 2, "timestamp": TIME, "app_id": "ż"}
        assert channel.publish("check.values", "", b"all", mandatory=True, **given).wait(10)
        message = channel.get(queue)
        assert message.properties == {**given, "timestamp": int(TIME.timestamp())} and message.ack()
        for octets, value in READ:
            assert channel.publish("", queue, b"one", mandatory=True, headers={"k": value}).wait(10)
            assert channel.get(queue, no_ack=True).properties == {"headers": {"k": value}}
        outcome = channel.publish("", "nowhere", b"back", mandatory=True, **given).wait(10)
        assert outcome.returned.properties_octets == message.properties_octets and outcome.returned.properties["headers"] == headers


@rabbit
def rabbitmq_and_pika_beside_this_package(url):
    headers = {"int": -5, "long": 1 << 40, "text": "żółć", "bytes": b"\xff", "none": None, "list": [1, {"a": True}], "decimal": decimal.Decimal("3.14"), "time": TIME}
    with other("pika") as pika, lapin.connect(url) as connection:
        if not pika:
            return
        theirs = pika.BlockingConnection(pika.URLParameters(url + "%2F"))
        channel, other_channel = connection.channel(confirms=True), theirs.channel()
        queue = channel.queue_declare(auto_delete=True).name
        other_channel.basic_publish("", queue, b"theirs", pika.BasicProperties(headers=headers, correlation_id="c", timestamp=5))
        while (message := channel.get(queue, no_ack=True)) is None:
            pass
        assert message.properties == {"headers": headers, "correlation_id": "c", "timestamp": 5}
        assert channel.publish("", queue, b"mine", headers=headers, correlation_id="c", timestamp=5).wait(10)
        _, found, body = other_channel.basic_get(queue, auto_ack=True)
        assert (body, found.headers) == (b"mine", {**headers, "time": TIME.replace(tzinfo=None)}) and (found.correlation_id, found.timestamp) == ("c", 5)
        channel.queue_delete(queue)
        theirs.close()

"""RabbitMQ's tutorials in both languages, and what a real broker refuses, cuts and gives back."""
import random
import sys

import lapin
from checks.common import ADAPTERS, address, beside, compiled, confirms, fails, rabbit, said


def python(name, *words, timeout=120):
    return said(sys.executable, f"{ADAPTERS}/python/tutorials/{name}.py", *words, timeout=timeout)


@rabbit
def rabbitmq_tutorials_in_python(url):
    assert "answers ack" in python("send", url)
    assert "Received Hello World!" in python("receive", url, 1)
    assert "ack" in python("new_task", url, "a", "task")
    assert "acknowledged: True" in python("worker", url, 1)
    tutorials = f"{ADAPTERS}/python/tutorials"
    for kind, bound, key in (("fanout", [], ""), ("direct", ["warning", "error"], "error"), ("topic", ["kern.*", "*.critical"], "kern.critical")):
        told = beside([sys.executable, f"{tutorials}/receive_logs.py", url, 8, kind, *bound], [sys.executable, f"{tutorials}/emit_log.py", url, kind, key, "a", "line"])
        assert f"[x] {key}:a line" in told, told
    told = beside([sys.executable, f"{tutorials}/rpc_server.py", url, 8], [sys.executable, f"{tutorials}/rpc_client.py", url, "30", "10"])
    assert "Got 832040" in told and "Got 55" in told, told
    assert python("publisher_confirms", url, 2000).count("2000 in the queue") == 3
    assert "acknowledged: True" in python("asyncio_hello", url)


@rabbit
def rabbitmq_tutorials_in_c(url):
    host, port = address(url)
    program = {name: compiled(name, f"{ADAPTERS}/c/tutorials/{name}.c") for name in
               ("send", "receive", "new_task", "worker", "emit_log", "receive_logs", "rpc_server", "rpc_client", "publisher_confirms")}
    assert "answers ack" in said(program["send"], host, port)
    assert "Received Hello World!" in said(program["receive"], host, port, 1)
    assert "ack" in said(program["new_task"], host, port, "a task")
    assert "acknowledged: yes" in said(program["worker"], host, port, 1)
    for kind, bound, key in (("fanout", [""], ""), ("direct", ["warning", "error"], "error"), ("topic", ["kern.*", "*.critical"], "kern.critical")):
        told = beside([program["receive_logs"], host, port, 1, kind, *bound], [program["emit_log"], host, port, kind, key, "a line"])
        assert f"[x] {key}:a line" in told, told
    assert "Got 832040" in beside([program["rpc_server"], host, port, 1], [program["rpc_client"], host, port, 30])
    told = said(program["publisher_confirms"], host, port, 1000)
    assert told.count("1000 acks") == 2 and "count 2000" in told, told


@rabbit
def rabbitmq_gives_back_what_was_published(url):
    draw = random.Random(11)
    with lapin.connect(url) as connection:
        channel = connection.channel(confirms=True, prefetch=50)
        queue, sizes = channel.queue_declare(exclusive=True).name, [int(2 ** draw.uniform(0, 18)) - 1 for _ in range(200)]
        bodies = [draw.randbytes(size) for size in sizes]
        given = [channel.publish("", queue, body, message_id=str(place), headers={"place": place, "deep": {"a": [1, "x", None, True]}}) for place, body in enumerate(bodies)]
        assert all([confirm.wait() for confirm in given])
        consumer = channel.consume(queue)
        for place, body in enumerate(bodies):
            message = consumer.next(10)
            assert message.body == body and message.properties["headers"] == {"place": place, "deep": {"a": [1, "x", None, True]}} and message.ack()
        assert channel.get(queue) is None


@rabbit
def rabbitmq_refuses_as_it_should(url):
    fails(lapin.OpeningFailed, lambda: lapin.connect(url.replace("guest:guest", "guest:wrong")))
    fails(lapin.OpeningFailed, lambda: lapin.connect(url + "nowhere"))
    with lapin.connect(url) as connection:
        channel = connection.channel(confirms=True)
        fails(lapin.CallFailed, lambda: channel.queue_declare("missing", passive=True), code=404)
        channel = connection.channel(confirms=True)
        outcome = channel.publish("", "nowhere", b"x", mandatory=True).wait()
        assert not outcome and outcome.returned.reply_text == "NO_ROUTE"


@rabbit
def rabbitmq_and_a_cut_connection(url):
    draw, stored, acked = random.Random(5), {}, set()
    with lapin.connect(url) as watcher:
        queue = watcher.channel().queue_declare("check.cut").name
        for turn in range(10):
            connection = lapin.connect(url)
            channel = connection.channel(confirms=True)
            given = {f"{turn}.{place}": None for place in range(300)}
            for place, name in enumerate(given):
                given[name] = channel.publish("", queue, name.encode())
                if draw.random() < 0.05:
                    connection.turn(0.001)
                if place == 150 + turn * 10:
                    connection.flush()
                    connection._wire.socket.shutdown(2)
                    break
            try:
                connection.turn(1)
            except lapin.ConnectionLost:
                pass
            for name, confirm in given.items():
                if confirm is not None:
                    try:
                        outcome = confirm.wait(30)
                        assert outcome.kind in ("ack", "nack")
                        acked |= {name} if outcome else set()
                    except lapin.CallFailed as error:
                        assert error.cause == "ConnectionLost", error
            connection.close()
        channel = watcher.channel()
        while (message := channel.get(queue, no_ack=True)) is not None:
            stored[message.body.decode()] = stored.get(message.body.decode(), 0) + 1
        assert acked <= set(stored), f"{len(acked - set(stored))} messages were acked and are not in the queue"
        channel.queue_delete(queue)

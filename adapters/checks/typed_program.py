"""A program that awaits every call of `lapin.aio` and makes every blocking one, for `mypy --strict`; what is ignored here has to be an error."""
import socket
import ssl
from concurrent.futures import Executor
from typing import Dict, List, Optional

import lapin
from lapin import aio, threads


async def work(message: lapin.Message) -> None:
    message.ack()


async def dialled(host: str, port: int) -> socket.socket:
    return socket.create_connection((host, port))


async def awaited(url: str) -> None:
    async with await aio.connect(url, timeout=5, frame_max=8192, channel_max=10, heartbeat=5, tls=ssl.create_default_context(),
                                 client_properties={"product": "p", "n": 1}, connection_name="typed", auth_mechanism="EXTERNAL", dial=dialled) as connection:
        told: Dict[str, object] = connection.server_properties
        limits: List[int] = [connection.frame_max, connection.channel_max, connection.heartbeat, len(connection.auth_mechanism), len(told)]
        channel: aio.Channel = await connection.channel(confirms=True, prefetch=10, limit=100)
        queue: lapin.Queue = await channel.queue_declare("q", durable=True, arguments={"x-max-length": 5})
        counts: List[int] = [await channel.queue_purge(queue.name), await channel.queue_delete("q", if_empty=True)]
        await channel.exchange_declare("e", "topic")
        await channel.exchange_bind("e", "f", "k")
        await channel.queue_bind("q", "e", "k")
        await channel.queue_unbind("q", "e", "k")
        await channel.exchange_delete("e", if_unused=True)
        await channel.qos(sum(counts), whole=True)
        await channel.recover(requeue=True)
        await channel.exchange_unbind("e", "f", "k")
        goes_on: bool = await channel.flow(True)
        connection.on_close = lambda error: print(error.reason, goes_on)
        channel.on_close = lambda error: print(error.reason)
        connection.on_blocked, channel.on_return = print, lambda returned: print(returned.reply_text)
        await channel.tx_select()
        await channel.tx_commit()
        await channel.tx_rollback()
        confirm: aio.Confirm = channel.publish("e", "k", b"body", mandatory=True, delivery_mode=2)
        outcomes: List[Optional[lapin.Outcome]] = [await confirm, await confirm.wait(5), confirm.poll()]
        returned: List[lapin.Returned] = await channel.wait_for_confirms(5)
        got: Optional[lapin.Message] = await channel.get("q", no_ack=True)
        consumer: aio.Consumer = await channel.consume("q", work, exclusive=True)
        following: Optional[lapin.Message] = await consumer.next(timeout=1)
        async for message in consumer:
            print(message.body, message.ack(multiple=True), outcomes, returned, got, following, connection.is_open, channel.is_open)
        async for perhaps in consumer.messages(inactivity_timeout=1):
            print(perhaps is None or perhaps.body)
        consumer.on_end = lambda it: print(it.tag)
        await consumer.cancel()
        await channel.cancel(consumer.tag)
        settled: List[bool] = [channel.ack(1, multiple=True), channel.nack(2, requeue=False), channel.reject(3)]
        print(settled, await connection.channel(by_tag=True))
        await connection.flush()
        await channel.close()
        channel.publish("e", "k", "a text")  # type: ignore[arg-type]
        channel.queue_declare(5)  # type: ignore[arg-type,unused-coroutine]


def threaded(url: str, pool: Executor) -> None:
    shared: lapin.Threads = lapin.Threads(executor=pool, most_waiting=1 << 16, patience=5)
    with lapin.connect(url, threads=shared) as connection, connection.channel(confirms=True, prefetch=5) as channel:
        consumer: lapin.Consumer = channel.consume("q", lambda it: it.ack())
        outcome: lapin.Outcome = channel.publish("e", "k", b"body").wait(5)
        connection.run(1)
        connection.stop()
        print(outcome, consumer.tag, isinstance(connection, threads.Connection), connection.turn(0))
    lapin.connect(url, threads="many")  # type: ignore[arg-type]


def blocking(url: str) -> None:
    with lapin.connect([url, url], dial=lambda host, port: socket.create_connection((host, port))) as connection, connection.channel(confirms=True) as channel:
        queue: lapin.Queue = channel.queue_declare()
        channel.queue_bind(queue.name, "e")
        confirm: lapin.Confirm = channel.publish("e", "k", memoryview(b"body"), headers={"n": 1})
        outcome: lapin.Outcome = confirm.wait()
        message: Optional[lapin.Message] = channel.get("q")
        consumer: lapin.Consumer = channel.consume("q", lambda it: it.ack())
        connection.run(timeout=1)
        octets: bytes = message.properties_octets if message else b""
        try:
            print(octets, message and message.properties, outcome.returned and outcome.returned.properties_octets)
        except lapin.MalformedProperties as error:
            print(error.words)
        print(connection.local_address, connection.remote_address)
        print(outcome.returned, message and message.left, [it.body for it in consumer], channel.wait_for_confirms(), connection.turn(0))
        print([it and it.body for it in consumer.messages(0.5)], channel.flow(True))
        connection.on_blocked, channel.on_return = print, print
        connection.on_close = lambda error: print(error.reason)
        channel.on_close = lambda error: print(error.reason)
        channel.exchange_unbind("e", "f")
        channel.recover(requeue=False)
        channel.cancel(consumer.tag)
        consumer.cancel()
        channel.qos("many")  # type: ignore[arg-type]
        channel.queue_purge()  # type: ignore[call-arg]

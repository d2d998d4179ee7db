"""What a client for Python costs: workloads.py CLIENT WORKLOAD URL N SIZE WINDOW. It prints microseconds of its own processor time a message.

CLIENT is lapin, lapin.aio or pika; WORKLOAD is publish (confirmed, WINDOW without an outcome at most), deliver (WINDOW without an ack at most, each
acknowledged), callback (the same, by a callback) or get (each acknowledged). What is delivered was published before the time is taken.
"""
import asyncio
import sys
import time

QUEUE = "bench.workloads"


class Taken:
    """The processor time since it was made."""

    def __init__(self):
        self.since = time.process_time()

    def told(self, n):
        print(f"{(time.process_time() - self.since) / n * 1e6:.3f}")


def filled(url, n, body):
    """A queue with so many messages, and nothing else."""
    import lapin
    with lapin.connect(url) as connection:
        channel = connection.channel(confirms=True)
        channel.queue_declare(QUEUE)
        channel.queue_purge(QUEUE)
        for _ in range(0, n, 1000):
            for confirm in [channel.publish("", QUEUE, body) for _ in range(min(n, 1000))]:
                assert confirm.wait()


def lapin_publish(url, n, body, window):
    import lapin
    with lapin.connect(url) as connection:
        channel, waiting, acks, taken = connection.channel(confirms=True), [], 0, Taken()
        for _ in range(n):
            waiting.append(channel.publish("", QUEUE, body))
            if len(waiting) >= window:
                connection.turn()
                done = 0
                while done < len(waiting) and (found := waiting[done].poll()) is not None:
                    acks, done = acks + bool(found), done + 1
                del waiting[:done]
        acks += sum(bool(confirm.wait()) for confirm in waiting)
        taken.told(n)
        assert acks == n


def lapin_deliver(url, n, body, window):
    import lapin
    with lapin.connect(url) as connection:
        consumer, taken = connection.channel(prefetch=window).consume(QUEUE), Taken()
        for _ in range(n):
            message = consumer.next()
            assert message.body == body and message.ack()
        connection.flush()
        taken.told(n)


def lapin_callback(url, n, body, window):
    import lapin
    left = n
    with lapin.connect(url) as connection:
        def got(message):
            nonlocal left
            assert message.body == body and message.ack()
            left -= 1
            if left == 0:
                connection.stop()
        taken = Taken()
        connection.channel(prefetch=window).consume(QUEUE, got)
        connection.run()
        taken.told(n)


def lapin_get(url, n, body, window):
    import lapin
    with lapin.connect(url) as connection:
        channel, taken = connection.channel(), Taken()
        for _ in range(n):
            message = channel.get(QUEUE)
            assert message.body == body and message.ack()
        connection.flush()
        taken.told(n)


async def aio_publish(url, n, body, window):
    from lapin import aio
    async with await aio.connect(url) as connection:
        channel, acks, taken = await connection.channel(confirms=True), 0, Taken()
        for _ in range(0, n, window):
            for confirm in [channel.publish("", QUEUE, body) for _ in range(min(n, window))]:
                acks += bool(await confirm)
        taken.told(n)
        assert acks >= n


async def aio_deliver(url, n, body, window):
    from lapin import aio
    async with await aio.connect(url) as connection:
        consumer, taken = await (await connection.channel(prefetch=window)).consume(QUEUE), Taken()
        for _ in range(n):
            message = await consumer.next()
            assert message.body == body and message.ack()
        taken.told(n)


async def aio_get(url, n, body, window):
    from lapin import aio
    async with await aio.connect(url) as connection:
        channel, taken = await connection.channel(), Taken()
        for _ in range(n):
            message = await channel.get(QUEUE)
            assert message.body == body and message.ack()
        taken.told(n)


def pika_publish(url, n, body, window):
    import pika
    if window == 1:
        connection = pika.BlockingConnection(pika.URLParameters(url))
        channel = connection.channel()
        channel.confirm_delivery()
        taken = Taken()
        for _ in range(n):
            channel.basic_publish("", QUEUE, body)
        taken.told(n)
        return connection.close()
    sent = done = 0
    taken = None

    def more(channel):
        nonlocal sent
        while sent < n and sent - done < window:
            channel.basic_publish("", QUEUE, body)
            sent += 1

    def on_confirm(frame):
        nonlocal done
        done = frame.method.delivery_tag if frame.method.multiple else done + 1
        if done >= n:
            taken.told(n)
            connection.close()
        else:
            more(opened[0])

    def on_channel(channel):
        def begin(_):
            nonlocal taken
            taken = Taken()
            more(channel)
        opened.append(channel)
        channel.confirm_delivery(on_confirm, callback=begin)
    opened = []
    connection = pika.SelectConnection(pika.URLParameters(url), on_open_callback=lambda it: it.channel(on_open_callback=on_channel),
                                       on_close_callback=lambda it, _: it.ioloop.stop())
    connection.ioloop.start()
    return None


def pika_callback(url, n, body, window):
    import pika
    left, connection = n, pika.BlockingConnection(pika.URLParameters(url))
    channel = connection.channel()
    channel.basic_qos(prefetch_count=window)

    def got(channel, method, properties, octets):
        nonlocal left
        assert octets == body
        channel.basic_ack(method.delivery_tag)
        left -= 1
        if left == 0:
            channel.stop_consuming()
    taken = Taken()
    channel.basic_consume(QUEUE, got)
    channel.start_consuming()
    taken.told(n)
    connection.close()


def pika_get(url, n, body, window):
    import pika
    connection = pika.BlockingConnection(pika.URLParameters(url))
    channel, taken = connection.channel(), Taken()
    for _ in range(n):
        method, _, octets = channel.basic_get(QUEUE)
        assert octets == body
        channel.basic_ack(method.delivery_tag)
    taken.told(n)
    connection.close()


RUNS = {"lapin": {"publish": lapin_publish, "deliver": lapin_deliver, "callback": lapin_callback, "get": lapin_get},
        "lapin.aio": {"publish": aio_publish, "deliver": aio_deliver, "get": aio_get},
        "pika": {"publish": pika_publish, "deliver": pika_callback, "callback": pika_callback, "get": pika_get}}


def main(client, workload, url, n, size, window):
    run, body = RUNS[client].get(workload), bytes(int(size))
    if run is None:
        return print("-")
    filled(url, int(n) if workload != "publish" else 0, body)
    given = run(url, int(n), body, int(window))
    return asyncio.run(given) if asyncio.iscoroutine(given) else None


if __name__ == "__main__":
    main(*sys.argv[1:]) if len(sys.argv) == 7 else sys.exit(__doc__)

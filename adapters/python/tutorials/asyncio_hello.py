"""Hello world with asyncio: asyncio_hello.py URL."""
import asyncio
import sys

from lapin import aio


async def main(url):
    async with await aio.connect(url) as connection:
        channel = await connection.channel(confirms=True, prefetch=10)
        queue = await channel.queue_declare(exclusive=True)
        consumer = await channel.consume(queue.name)
        confirms = [channel.publish("", queue.name, f"Hello {number}".encode()) for number in range(3)]
        print(" [x]", *[str(await confirm) for confirm in confirms])
        for _ in confirms:
            message = await consumer.next(timeout=5)
            print(f" [x] Received {message.body.decode()}, acknowledged: {message.ack()}")


asyncio.run(main(sys.argv[1]))

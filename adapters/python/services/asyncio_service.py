"""A web service for asyncio: asyncio_service.py URL PORT. `POST /send/KEY` publishes its body, and answers 200 once the broker answers for it.

One connection for the process, which is opened again where it was lost. Each request's publish is awaited to its own confirm: 503 says that the
message isn't known to be stored, and a caller sends it again.
"""
import asyncio
import sys

import lapin
from lapin import aio

#: What this service did, as plain numbers.
COUNTS = {"published": 0, "acked": 0, "refused": 0, "unknown": 0, "connections": 0}


class Publisher:
    """A channel with confirms that is there when it is asked for."""

    def __init__(self, url):
        self.url, self.opening, self.channel, self.connection = url, asyncio.Lock(), None, None

    async def ready(self):
        async with self.opening:
            if self.channel is None or not self.channel.is_open:
                if self.connection is None or not self.connection.is_open:
                    self.connection = await aio.connect(self.url, connection_name="asyncio_service")
                    COUNTS["connections"] += 1
                self.channel = await self.connection.channel(confirms=True)
                await self.channel.queue_declare("services", durable=True)
            return self.channel

    async def send(self, key, body):
        """Whether a queue has the message."""
        channel = await self.ready()
        COUNTS["published"] += 1
        outcome = await channel.publish("", "services", body, mandatory=True, delivery_mode=2, message_id=key).wait(10)
        COUNTS["acked" if outcome else "refused"] += 1
        return bool(outcome)


async def answered(publisher, method, path, body):
    """The status of a request."""
    if method != "POST" or not path.startswith("/send/"):
        return 404
    for _ in range(2):  # once more where the connection was lost, under the same message_id
        try:
            return 200 if await publisher.send(path[6:], body) else 503
        except (lapin.Error, OSError):
            COUNTS["unknown"] += 1
            await asyncio.sleep(0.1)
    return 503


async def serve(publisher, reader, writer):
    """One request of one client."""
    try:
        method, path, _ = (await reader.readline()).decode().split(" ")
        length = 0
        while (line := await reader.readline()).strip():
            if line.lower().startswith(b"content-length:"):
                length = int(line.split(b":")[1])
        status = await answered(publisher, method, path, await reader.readexactly(length))
        writer.write(f"HTTP/1.1 {status} \r\nContent-Length: 0\r\nConnection: close\r\n\r\n".encode())
        await writer.drain()
    except (ValueError, OSError, asyncio.IncompleteReadError):
        pass
    finally:
        writer.close()


async def main(url, port):
    publisher = Publisher(url)
    server = await asyncio.start_server(lambda *streams: serve(publisher, *streams), "127.0.0.1", port)
    print("ready", server.sockets[0].getsockname()[1], flush=True)
    await asyncio.get_running_loop().run_in_executor(None, sys.stdin.read)
    server.close()
    if publisher.connection is not None:
        await publisher.connection.close()
    print(COUNTS)


asyncio.run(main(sys.argv[1], int(sys.argv[2])))

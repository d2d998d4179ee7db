"""RabbitMQ's tutorial 6, request and reply: rpc_server.py URL [SECONDS]."""
import sys

import lapin


def fib(n):
    a, b = 0, 1
    for _ in range(n):
        a, b = b, a + b
    return a


with lapin.connect(sys.argv[1]) as connection:
    channel = connection.channel(prefetch=1)
    channel.queue_declare("rpc_queue")

    def answer(message):
        n, given = int(message.body), message.properties
        print(f" [.] fib({n})", flush=True)
        channel.publish("", given["reply_to"], str(fib(n)).encode(), correlation_id=given["correlation_id"])
        message.ack()

    channel.consume("rpc_queue", answer)
    print(" [x] Awaiting RPC requests", flush=True)
    connection.run(float(sys.argv[2]) if len(sys.argv) > 2 else None)

"""RabbitMQ's tutorials 3 to 5, exchanges: receive_logs.py URL SECONDS KIND [KEY..]; with topic a key may have * and #."""
import sys

import lapin

url, seconds, kind, *keys = sys.argv[1:]
with lapin.connect(url) as connection:
    channel = connection.channel()
    channel.exchange_declare(f"{kind}_logs", kind)
    queue = channel.queue_declare(exclusive=True).name
    for key in keys or [""]:
        channel.queue_bind(queue, f"{kind}_logs", key)
    channel.consume(queue, lambda message: print(f" [x] {message.routing_key}:{message.body.decode()}", flush=True), no_ack=True)
    print(" [*] Waiting for logs. To exit press CTRL+C", flush=True)
    connection.run(float(seconds) or None)

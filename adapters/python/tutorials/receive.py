"""RabbitMQ's tutorial 1, hello world: receive.py [URL [SECONDS]]."""
import sys

import lapin

url, seconds = (sys.argv[1:] + ["amqp://localhost/", "0"][len(sys.argv) - 1:])[:2]


def show(message):
    print(f" [x] Received {message.body.decode()}", flush=True)
    message.ack()


with lapin.connect(url) as connection:
    channel = connection.channel()
    channel.queue_declare("hello")
    channel.consume("hello", show)
    print(" [*] Waiting for messages. To exit press CTRL+C", flush=True)
    connection.run(float(seconds) or None)

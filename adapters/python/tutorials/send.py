"""RabbitMQ's tutorial 1, hello world: send.py [URL]."""
import sys

import lapin

with lapin.connect(*sys.argv[1:]) as connection:
    channel = connection.channel(confirms=True)
    channel.queue_declare("hello")
    outcome = channel.publish("", "hello", b"Hello World!").wait()
    print(f" [x] Sent 'Hello World!', the broker answers {outcome}")

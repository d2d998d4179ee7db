"""RabbitMQ's tutorial 6, request and reply: rpc_client.py URL N.."""
import sys
import uuid

import lapin

with lapin.connect(sys.argv[1]) as connection:
    channel = connection.channel()
    replies = channel.queue_declare(exclusive=True).name
    answers = channel.consume(replies, no_ack=True)
    for n in sys.argv[2:] or ["30"]:
        print(f" [x] Requesting fib({n})")
        name = str(uuid.uuid4())
        channel.publish("", "rpc_queue", n.encode(), reply_to=replies, correlation_id=name)
        answer = answers.next(timeout=10)
        while answer.properties.get("correlation_id") != name:
            answer = answers.next(timeout=10)
        print(f" [.] Got {answer.body.decode()}")

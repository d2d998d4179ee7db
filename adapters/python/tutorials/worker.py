"""RabbitMQ's tutorial 2, work queues: worker.py URL [SECONDS]. Each dot of a task takes a second."""
import sys
import time

import lapin


def work(message):
    print(f" [x] Received {message.body.decode()}", flush=True)
    time.sleep(message.body.count(b"."))
    print(f" [x] Done, acknowledged: {message.ack()}", flush=True)


with lapin.connect(sys.argv[1]) as connection:
    channel = connection.channel(prefetch=1)
    channel.queue_declare("task_queue", durable=True)
    channel.consume("task_queue", work)
    print(" [*] Waiting for tasks. To exit press CTRL+C", flush=True)
    connection.run(float(sys.argv[2]) if len(sys.argv) > 2 else None)

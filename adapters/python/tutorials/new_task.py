"""RabbitMQ's tutorial 2, work queues: new_task.py URL WORD.. A task outlives a restart of the broker."""
import sys

import lapin

task = " ".join(sys.argv[2:]) or "Hello World!"
with lapin.connect(sys.argv[1]) as connection:
    channel = connection.channel(confirms=True)
    channel.queue_declare("task_queue", durable=True)
    outcome = channel.publish("", "task_queue", task.encode(), delivery_mode=2).wait()
    print(f" [x] Sent {task}: {outcome}")

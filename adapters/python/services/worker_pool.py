"""A worker with a pool: worker_pool.py URL COUNT. Tasks of the queue `services` are worked on by threads, and acknowledged by the one that has the
connection, in whatever order they are done; it ends behind so many.

No more than `prefetch` are under way, so what a worker holds has its bound. A task that raises goes back once, and the second time is dropped.
"""
import queue
import sys
from concurrent.futures import ThreadPoolExecutor

import lapin


def work(message):
    """A task's work; nothing of the connection is used here."""
    return message.body.decode()[::-1]


def main(url, count):
    done = queue.SimpleQueue()
    with lapin.connect(url, connection_name="worker_pool") as connection, ThreadPoolExecutor(4) as pool:
        channel = connection.channel(prefetch=20)
        channel.queue_declare("services", durable=True)
        seen, consumer = set(), channel.consume("services")
        for message in consumer.messages(inactivity_timeout=0.01):
            if message is not None:
                pool.submit(work, message).add_done_callback(lambda task, it=message: done.put((it, task)))
            while not done.empty():
                finished, task = done.get()
                if task.exception() is None:
                    seen.add(task.result())
                    finished.ack()
                else:
                    finished.reject(requeue=not finished.redelivered)
            if len(seen) >= count:
                break
        consumer.cancel()
    print(len(seen), "done")


main(sys.argv[1], int(sys.argv[2]))

#!/usr/bin/env python3
"""What kombu costs over this package and over py-amqp: kombu_costs.py PORT [COUNT]. Processor time of this process for a message, in microseconds:
the least of five rounds, which run in turn."""
import sys
import time

import lapin.kombu  # noqa: F401
from kombu import Connection, Consumer, Producer, Queue

#: The headers that Celery gives a task.
HEADERS = {"lang": "py", "task": "tasks.add", "id": "8f7c2a54-2f0a-4b0e-9f5a-3c2f6c1d7e10", "shadow": None, "eta": None, "expires": None, "group": None,
           "group_index": None, "retries": 0, "timelimit": [None, None], "root_id": "8f7c2a54-2f0a-4b0e-9f5a-3c2f6c1d7e10", "parent_id": None,
           "argsrepr": "(1, 2)", "kwargsrepr": "{}", "origin": "gen1@host", "ignore_result": False}


def spent(call, count):
    began = time.process_time()
    call(count)
    return (time.process_time() - began) / count * 1e6


def round_of(scheme, port, count, headers):
    """Microseconds of a publish, and of a message that is consumed and acknowledged."""
    with Connection(f"{scheme}://guest:guest@127.0.0.1:{port}//") as connection:
        channel, got = connection.channel(), []
        queue = Queue("bench.kombu", durable=False)(channel)
        queue.declare()
        queue.purge()
        producer = Producer(channel)
        published = spent(lambda times: [producer.publish(b"x" * 100, routing_key="bench.kombu", headers=headers, content_type="application/data",
                                                          content_encoding="binary") for _ in range(times)], count)

        def consume(times):
            while len(got) < times:
                connection.drain_events(timeout=20)
        channel.basic_qos(0, 500, False)
        with Consumer(channel, [queue], on_message=lambda message: (message.ack(), got.append(None)), accept=None):
            consumed = spent(consume, count)
        queue.delete()
    return published, consumed


def main(port, count=3000):
    for name, headers in (("bare", None), ("with Celery's headers", HEADERS)):
        rounds = [[round_of(scheme, port, int(count), headers) for scheme in ("lapin", "amqp")] for _ in range(5)]
        for at, what in enumerate(("published", "consumed and acknowledged")):
            ours, theirs = (min(it[side][at] for it in rounds) for side in (0, 1))
            print(f"{name}, {what}: {ours:.1f} us, py-amqp {theirs:.1f}", flush=True)


if __name__ == "__main__":
    main(*sys.argv[1:])

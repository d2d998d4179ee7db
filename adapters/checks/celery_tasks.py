"""The tasks of with_celery.py: a worker is started over this module, and the check sends to it. BROKER is its broker's URL, QUEUE its queue."""
import os
import time

import billiard.pool
import lapin.kombu  # noqa: F401  (makes lapin:// known)
from celery import Celery

# As a pool's process ends it waits 30 seconds for its results to be counted. Where the connection was lost meanwhile Celery has let go of jobs that
# were on their way to it, and counts none of these, whatever the transport is. Here it waits a second.
billiard.pool.GUARANTEE_MESSAGE_CONSUMPTION_RETRY_LIMIT = 10

app = Celery("tasks", broker=os.environ["BROKER"], backend="rpc://")
app.conf.update(task_default_queue=os.environ["QUEUE"], task_acks_late=True, task_reject_on_worker_lost=True, worker_prefetch_multiplier=4,
                broker_connection_retry_on_startup=True, broker_transport_options={"confirm_publish": True}, result_persistent=False)


@app.task
def add(left, right):
    return left + right


@app.task(bind=True, max_retries=2)
def flaky(self):
    if self.request.retries < 2:
        raise self.retry(countdown=0.2, exc=ValueError("again"))
    return self.request.retries


@app.task(ignore_result=True)
def mark(number, path, pause=0.0):
    """Leaves a line in a file."""
    time.sleep(pause)
    with open(path, "ab", buffering=0) as file:
        file.write(b"%d\n" % number)

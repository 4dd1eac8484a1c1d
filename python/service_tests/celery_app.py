"""The Celery application of the tests, with its worker's hook. PLAIN leaves out the guard, and with
INSTALLED there is nothing but `storklocker.install`.
"""

import os

import common
import jobs
import watching
from celery import Celery, signals

import storklocker
from storklocker import lists
from storklocker.contrib.kombu import register

REDIS = f"redis://127.0.0.1:{os.environ['REDIS_PORT']}"
REFUSED = os.environ["REFUSED_LOG"]
PLAIN = "PLAIN" in os.environ
READERS = ["billiard/common.py", "celery/concurrency/asynpool.py", "celery/utils/serialization.py"]
"""What reads the pickles that the worker's own processes send to each other, or make and read."""


def told(refusal):
    """The hook: a line for each refusal."""
    about = refusal.context or {}
    reason = refusal.verdict.reason
    why = "MoreBytes" if reason is None else reason.name
    line = f"{about.get('task')} {about.get('id')} {why}\n"
    with open(REFUSED, "a", encoding="utf-8") as log:
        log.write(line)


def application(backend=f"{REDIS}/2"):
    """An application without the guard."""
    made = Celery("tests", broker=f"{REDIS}/{5 if PLAIN else 1}", backend=backend)
    made.conf.update(
        task_serializer="pickle",
        result_serializer="pickle",
        accept_content=["pickle"],
        worker_hijack_root_logger=False,
        broker_connection_retry=False,
        worker_prefetch_multiplier=64,
    )
    return made


app = application()
add = app.task(jobs.add, name="jobs.add")
finish = app.task(jobs.finish, name="jobs.finish")
fail = app.task(jobs.fail, name="jobs.fail")
LIST = storklocker.AllowList(common.LISTED)
if "INSTALLED" in os.environ:
    LIST |= lists.CELERY | lists.EXCEPTIONS
    storklocker.install(storklocker.Guard(LIST, fix_imports=True, on_refusal=told))
elif not PLAIN:
    register(common.guard(told), app)


@signals.worker_ready.connect
@signals.worker_process_init.connect
def watched(**_):
    """Both the worker's main process and those that run tasks."""
    if not PLAIN:
        folders = [os.path.dirname(REFUSED)]
        watching.watch(LIST, folders, readers=READERS)

"""The Celery application of services.py, with pickles that are bare or guarded."""

import os
import time
from typing import Any, Dict

import redis  # type: ignore[import]
import storklocker  # type: ignore[import]
from celery import Celery  # type: ignore[import]
from storklocker import lists
from storklocker.contrib.kombu import register  # type: ignore[import]

REDIS = f"redis://127.0.0.1:{os.environ['REDIS_PORT']}"
QUEUE = os.environ.get("QUEUE", "bare")
app = Celery("jobs", broker=f"{REDIS}/1")
app.conf.update(
    task_serializer="pickle",
    accept_content=["pickle"],
    task_ignore_result=True,
    worker_hijack_root_logger=False,
    worker_prefetch_multiplier=64,
)
if QUEUE == "guarded":
    register(storklocker.Guard(lists.DATETIME | lists.STANDARD_TYPES), app)
signals: Any = redis.Redis.from_url(f"{REDIS}/2")
_began: Dict[str, int] = {}


@app.task  # type: ignore[misc]
def begin() -> None:
    """Starts the clock as soon as all of the batch is in the queue."""
    signals.blpop("queued")
    _began["at"] = time.process_time_ns()


@app.task  # type: ignore[misc]
def work(payload: object) -> None:
    """A job that does nothing."""


@app.task  # type: ignore[misc]
def finish() -> None:
    """Tells the CPU time of the batch in nanoseconds."""
    signals.rpush("done", time.process_time_ns() - _began["at"])

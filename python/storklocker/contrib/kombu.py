"""Kombu's and Celery's content type `pickle` under a guard.

    from storklocker.contrib.kombu import register

    app = Celery("project", ...)
    app.conf.update(task_serializer="pickle", accept_content=["pickle"])
    register(guard, app)

From then on the guard loads messages and results of type `application/x-python-serialize` in
workers, clients and result backends. With a Celery application

- a refused message is rejected without requeueing, stores a failure for its task's id, and its body
  isn't logged;
- a refused result is a failure of its own task;
- the context of each `Refusal` is `{"task": .., "id": ..}`.
"""

from __future__ import annotations

from typing import Any, Optional

from .._guard import Guard
from . import _celery_results, _celery_worker
from ._loading import Loader

CONTENT_TYPE = "application/x-python-serialize"


def register(guard: Guard, app: Optional[Any] = None) -> None:
    """Replaces kombu's pickle codec by the guard. With a Celery application, it also changes how
    its workers and clients handle refused messages and results. Raises RuntimeError for Celery
    before 5.2.2, which calls whatever function a stored exception names.
    """
    from kombu import serialization

    loads = Loader(guard).loads

    def decode(data: Any) -> Any:
        return loads(data.encode() if isinstance(data, str) else data)

    serialization.register("pickle", guard.dumps, decode, CONTENT_TYPE, "binary")
    if app is not None:
        _celery_worker.guard_workers(app)
        _celery_results.guard_results(app, guard)


def register_database(guard: Guard) -> None:
    """Guards the columns of Celery's result backend `db+`, which SQLAlchemy itself unpickles.
    `register` with an application does so by itself.
    """
    _celery_results.guard_columns(guard)

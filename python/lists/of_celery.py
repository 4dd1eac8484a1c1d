"""Objects that Celery sends and keeps with the serializer `pickle`, for the list `CELERY`."""

import datetime

import celery
import kombu
from billiard import exceptions as of_billiard
from billiard.einfo import ExceptionInfo
from celery import exceptions as of_celery
from celery.beat import ScheduleEntry
from celery.canvas import chain, chord, group
from celery.events.state import Worker
from celery.result import EagerResult
from celery.schedules import crontab, schedule
from celery.utils.collections import LimitedSet
from celery.utils.serialization import UnpickleableExceptionWrapper
from celery.utils.time import ffwd
from kombu import exceptions as of_kombu

VERSIONS = f"Celery {celery.__version__}, kombu {kombu.__version__}"


def _signatures():
    app = celery.Celery("lists", broker="memory://", set_as_current=False)

    @app.task(name="lists.add")
    def add(one, other=1):
        return one + other

    yield from (add.s(1), add.si(1, other=2).set(countdown=5))
    yield from (chain(add.s(1), add.s(2)), group(add.s(1), add.s(2)), chord([add.s(1)], add.s(2)))


def _errors():
    for module in (of_celery, of_kombu, of_billiard):
        for kind in vars(module).values():
            is_own = isinstance(kind, type) and kind.__module__ == module.__name__
            if not is_own or not issubclass(kind, Exception):
                continue
            for given in (("why",), (), (1, "why")):
                try:
                    yield kind(*given)
                except TypeError:
                    continue
                break


def _failures():
    """What a process of a worker says of a task that failed."""
    try:
        raise KeyError("why")
    except KeyError:
        yield ExceptionInfo()


def _kept():
    """What beat and workers keep in files, and what tasks answer that run in place."""
    at = datetime.datetime(2026, 1, 2, tzinfo=datetime.timezone.utc)
    plans = (crontab(hour=3), crontab("*/5", "1-3", "mon", [1, 15], {1, 6}), schedule(30.0))
    yield from plans
    yield from (ScheduleEntry("a", "a.add", at, 1, plan, (1,), {"other": 2}, {}) for plan in plans)
    yield from (EagerResult("id", [1], "SUCCESS"), Worker("host", 5, 60, [1.5, 2.5], 3))
    yield LimitedSet(3, 5.0, {"a": 1e300, "b": 2e300})
    yield ffwd(hour=3)


def objects():
    """Signatures, exceptions as results, and failures."""
    yield from _signatures()
    yield from _errors()
    yield from _failures()
    yield from _kept()
    yield UnpickleableExceptionWrapper("shop.errors", "Gone", ("why",))

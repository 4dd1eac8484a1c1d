"""RQ's queues and workers under a guard.

    from storklocker.contrib import rq as guarded

    Queue, Worker = guarded.classes(guard)
    Worker([Queue("jobs", connection=redis)], connection=redis).work()

A job also names its function and its callbacks as text, which a check of imports doesn't see. So
these must be on the guard's list too: `("project.jobs", "resize")` permits the function
`project.jobs.resize`. The adapter refuses others before RQ imports anything. A job whose metadata
or callback is refused fails. The context of each `Refusal` is `{"id": ..}`, the id of the job.
"""

from __future__ import annotations

from typing import Any, Dict, Optional, Tuple, Type

from .._guard import Guard
from .._refusal import CONTEXT
from ._loading import Loader
from ._naming import NameRefused, Names
from ._rebinding import names_read_by, rebound

__all__ = ["NameRefused", "classes", "serializer"]


def serializer(guard: Guard) -> Any:
    """The object for RQ's `serializer`, to read results with. For workers, use `classes`.

    Pickles go through the guard, and so does the name of a function: whatever RQ can unpack into
    four, of which the first is a text, is judged as a job. Callbacks are not seen here.
    """
    from rq.utils import import_attribute

    loader, names = Loader(guard), Names(guard, import_attribute)

    class Serializer:
        dumps = staticmethod(guard.dumps)

        @staticmethod
        def loads(data: bytes) -> Any:
            return names.judge_job(loader.loads(data), data)

    return Serializer


def classes(guard: Guard, worker: Optional[Type[Any]] = None) -> Tuple[Type[Any], Type[Any]]:
    """Classes of queues and workers whose jobs go through the guard, callbacks included. `worker`
    is the base class if it isn't `rq.Worker`, such as `rq.SimpleWorker`. Raises TypeError for one
    that runs its jobs in a new interpreter, which would have no guard.
    """
    import rq

    plain: Any = worker or rq.Worker
    if any(_spawns(member) for kind in plain.__mro__ for member in vars(kind).values()):
        raise TypeError(f"{plain.__name__} runs jobs in a new interpreter, which has no guard")
    job = _job_class(guard)
    words = {"job_class": job, "serializer": serializer(guard)}

    class Queue(rq.Queue):  # type: ignore[misc]
        job_class = job

        def __init__(self, *given: Any, **named: Any) -> None:
            super().__init__(*given, **{**named, **words})

    class Worker(plain):  # type: ignore[misc]
        job_class = job
        queue_class = Queue

        def __init__(self, *given: Any, **named: Any) -> None:
            super().__init__(*given, **{**named, **words, "queue_class": Queue})

    return Queue, Worker


def _spawns(member: object) -> bool:
    return any(name.startswith("spawn") for name in names_read_by(member))


def _job_class(guard: Guard) -> Type[Any]:
    """RQ's class of jobs under the guard, whoever makes one and with whichever serializer."""
    from rq.job import Job
    from rq.utils import import_attribute

    names = Names(guard, import_attribute)
    plain: Any = rebound(Job, {"import_attribute": names.imported})
    for word, member in list(vars(plain).items()):
        if isinstance(member, property):
            setattr(plain, word, _telling(member))
    return type("GuardedJob", (_Guarded, plain), {"_guard": guard, "_names": names})


class _Guarded:
    """A mixin for RQ's class of jobs."""

    _guard: Guard
    _names: Names
    _refused: Optional[Exception] = None
    id: str
    meta: Any

    def __init__(self, *given: Any, **named: Any) -> None:
        super().__init__(*given, **named)
        self.serializer = _JobSerializer(self._guard, self)

    @property
    def func(self) -> Any:
        job: Any = self
        name, instance = job.func_name, job.instance
        if name is None:
            return None
        with self._guard.context({"id": self.id}):
            if instance:
                return self._names.method(instance, name, job.data)
            return self._names.imported(name, job.data)

    def restore(self, raw_data: Any) -> None:
        plain: Any = super()
        self._refused, self.serializer.failed = None, {}
        try:
            plain.restore(raw_data)
        except Exception as error:  # RQ's worker ends if it cannot read a job's metadata
            kept = {key: raw_data[key] for key in raw_data if key not in (b"meta", "meta")}
            if len(kept) == len(raw_data):
                raise
            plain.restore(kept)
            self._refused = error
        for key in (b"meta", "meta"):  # (RQ 2 goes on without)
            if raw_data.get(key) in self.serializer.failed:
                self._refused, self.meta = self.serializer.failed[raw_data[key]], {}
        if self._guard.enforce:
            self._judge_callbacks()

    def _judge_callbacks(self) -> None:
        """Lets a job fail whose callback is refused. (Where RQ asks for a callback, an error can
        end the worker.)
        """
        for word in [it for it in vars(self) if it.endswith("_callback_name")]:
            try:
                with self._guard.context({"id": self.id}):
                    if getattr(self, word):
                        self._names.judge(getattr(self, word))
            except NameRefused as error:
                self._refused = error
                setattr(self, word[: -len("_name")], None)

    def perform(self) -> Any:
        if self._refused is not None:
            raise self._refused
        plain: Any = super()
        return plain.perform()


def _telling(member: property) -> property:
    """A property of a job that imports a name, with the job's id in refusals."""

    def get(job: Any) -> Any:
        token = CONTEXT.set({"id": job.id})
        try:
            return member.__get__(job)
        finally:
            CONTEXT.reset(token)

    return property(get, member.fset, member.fdel, member.__doc__)


class _JobSerializer:
    """The serializer of a job, with the job's id in refusals. What it loads isn't judged as a job:
    that is done where the job is run.
    """

    def __init__(self, guard: Guard, job: Any) -> None:
        self.dumps, self._loads, self._job = guard.dumps, Loader(guard).loads, job
        self.failed: Dict[bytes, Exception] = {}
        """What didn't load of what a job was last restored from."""

    def loads(self, data: bytes) -> Any:
        token = CONTEXT.set({"id": self._job.id})
        try:
            return self._loads(data)
        except Exception as error:
            self.failed[data] = error
            raise
        finally:
            CONTEXT.reset(token)

"""What Celery's clients do with a result that the guard refuses."""

from __future__ import annotations

import functools
import pickle
from typing import Any, Callable, Dict, NamedTuple, Optional, cast

from .._guard import Guard
from .._refusal import CONTEXT
from ._loading import Loader

_FIRST_SAFE = (5, 2, 2)
"""The first Celery that makes only exceptions of what a stored exception names."""


class _Payload(NamedTuple):
    """A result that isn't decoded yet."""

    data: Any


def failure(words: str) -> Dict[str, Any]:
    """What Celery stores of an exception, in any serializer."""
    return {"exc_type": "DecodeError", "exc_module": "kombu.exceptions", "exc_message": [words]}


def guard_results(app: Any, guard: Guard) -> None:
    """Guards each result backend that the application makes."""
    import celery

    if tuple(celery.VERSION[:3]) < _FIRST_SAFE:
        raise RuntimeError("Celery before 5.2.2 calls whatever a stored exception names")
    make = app._get_backend

    def get_backend() -> Any:
        backend = make()
        _guard_backend(backend, guard)
        return backend

    app._get_backend = get_backend
    vars(app._local).pop("backend", None)  # one that was made before


def guard_columns(guard: Guard) -> None:
    """Guards the columns of the result backend `db+`, which SQLAlchemy itself unpickles."""
    from celery.backends.database import models
    from sqlalchemy.types import PickleType

    for model in (models.Task, models.TaskSet):
        for column in model.__table__.columns:
            if isinstance(column.type, PickleType):
                column.type.pickler = Loader(guard)


def _guard_backend(backend: Any, guard: Guard) -> None:
    kinds = {f"{kind.__module__}.{kind.__name__}" for kind in type(backend).__mro__}
    if "celery.backends.cache.CacheBackend" in kinds and backend.backend != "memory":
        raise TypeError(
            "Celery's backend `cache` can't be guarded: memcached's client unpickles by itself"
        )
    if "celery.backends.database.DatabaseBackend" in kinds:
        guard_columns(guard)
    reader = _Reader(backend)
    wrappers: Dict[str, Callable[..., Any]] = {
        "decode_result": reader.decoded,
        "_get_task_meta_for": reader.meta_for,
        "_set_cache_by_message": reader.cached,
    }
    for word, wrapped in wrappers.items():
        if hasattr(backend, word):
            setattr(backend, word, functools.partial(wrapped, getattr(backend, word)))
    consumer: Any = getattr(backend, "result_consumer", None)
    if hasattr(consumer, "_decode_result"):  # Redis
        consumer._decode_result = _Payload
        consumer.on_state_change = functools.partial(reader.changed, consumer.on_state_change)
    elif hasattr(consumer, "Consumer"):  # queues
        received = functools.partial(reader.received, consumer)
        consumer.Consumer = functools.partial(consumer.Consumer, on_message=received)
        consumer.on_out_of_band_result = received


class _Reader:
    """Reads results of a backend. One that can't be read is a failure of its own task."""

    def __init__(self, backend: Any) -> None:
        self._backend = backend
        self._decode = backend.decode_result

    def decoded(self, plain: Callable[[Any], Any], payload: Any) -> Any:
        """A result of a task that isn't known here."""
        return self._read(None, lambda: plain(payload))

    def meta_for(self, plain: Callable[[Any], Any], name: Any) -> Any:
        """The result of a task that is asked for. What else the backend raises is no refusal."""
        from kombu.exceptions import DecodeError

        return self._read(name, lambda: plain(name), (DecodeError, pickle.UnpicklingError))

    def cached(self, plain: Callable[..., Any], name: Any, message: Any) -> Any:
        """The result of a task, in a message."""
        meta = self._backend._cache[name] = self._read(name, lambda: plain(name, message))
        return meta

    def changed(self, plain: Callable[..., Any], meta: Any, message: Any) -> Any:
        """A result that Redis tells of, of any task that is waited for."""
        if not isinstance(meta, _Payload):
            return plain(meta, message)
        for name in self._names_of(meta.data, message):
            plain(self._read(name, lambda: self._decode(meta.data)), message)
        return None

    def received(self, consumer: Any, message: Any) -> Any:
        """A result that a queue delivers, of any task that is waited for."""
        name = message.properties.get("correlation_id")
        meta = self._read(name, lambda: self._backend.meta_from_decoded(message.decode()))
        return consumer.on_state_change(meta, message)

    def _names_of(self, data: Any, message: Any) -> Any:
        """The ids of the tasks whose result this is: by its channel or, after the connection was
        lost, by what is stored under the keys that are waited for.
        """
        keys = [message["channel"]] if message is not None else [
            key for key in list(self._backend.result_consumer.subscribed_to)
            if self._backend.get(key) == data
        ]
        prefix = _text(self._backend.task_keyprefix)
        return [_text(key).partition(prefix)[2] or _text(key) for key in keys]

    def _read(
        self, name: Optional[str], read: Callable[[], Any], errors: Any = Exception
    ) -> Dict[str, Any]:
        """What `read` gives, or a failure if it raises: also because an exception that was stored
        can't be made again, and if it has another shape than a result's.
        """
        token = CONTEXT.set({"task": None, "id": name}) if name is not None else None
        try:
            meta = read()
            is_result = isinstance(meta, dict) and isinstance(meta.get("status"), str)
            meta = meta if is_result else _failed(TypeError("it isn't the result of a task"))
        except errors as error:
            meta = _failed(error)
        finally:
            if token is not None:
                CONTEXT.reset(token)
        if name is not None:
            meta["task_id"] = name
        return cast(Dict[str, Any], meta)


def _failed(error: Exception) -> Dict[str, Any]:
    """The failure of a task whose result can't be read."""
    from kombu.exceptions import DecodeError

    is_told = isinstance(error, DecodeError)
    told = error if is_told else DecodeError(f"{type(error).__name__}: {error}")
    return {"status": "FAILURE", "result": told, "traceback": None, "children": []}


def _text(key: Any) -> str:
    return key.decode() if isinstance(key, bytes) else str(key)

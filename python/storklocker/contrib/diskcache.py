"""diskcache's caches, deques and indexes under a guard: values in rows and in files, and keys.

    from storklocker.contrib import diskcache as guarded

    Cache = guarded.cache(guard)            # a refused value is a miss, as an absent one is
    cache = Cache("cache")
    Deque, Index = guarded.deque(guard), guarded.index(guard)

`disk(guard)` is the class for the argument `disk` of diskcache's own classes, such as
`FanoutCache`. With it, and in deques and indexes, a refused value raises UnpicklingError, and so
does a refused key. diskcache's own `Deque` and `Index` open their folder with a plain disk.
"""

from __future__ import annotations

import functools
import inspect
import pickle
from typing import Any, Type

from .._guard import Guard
from ._loading import Loader, Unloadable
from ._misses import Misses, about
from ._rebinding import rebound


def disk(guard: Guard) -> Type[Any]:
    """The class for the argument `disk` of `diskcache.Cache` and `diskcache.FanoutCache`."""
    from diskcache.core import Disk

    return rebound(Disk, {"pickle": _DiskLoader(guard)})


def cache(guard: Guard) -> Type[Any]:
    """`diskcache.Cache` with a guarded disk. A refused value is a miss: `get` returns its default.
    It is logged with its key, or reported to the guard's `on_refusal` with the key as context.
    """
    from diskcache import Cache

    guarded, misses = disk(guard), Misses(guard)

    class GuardedCache(Cache):  # type: ignore[misc]
        def __init__(
            self, directory: Any = None, timeout: float = 60, disk: Any = guarded, **settings: Any
        ) -> None:
            super().__init__(directory, timeout, disk, **settings)

        def get(self, key: Any, default: Any = None, *given: Any, **named: Any) -> Any:
            bound = inspect.signature(super().get).bind(key, default, *given, **named).arguments
            try:
                with about(key):
                    return super().get(**bound)
            except pickle.UnpicklingError as error:
                misses.tell(key, error)
            more = [None for word in ("expire_time", "tag") if bound.get(word)]
            return (default, *more) if more else default

    return GuardedCache


def deque(guard: Guard) -> Type[Any]:
    """`diskcache.Deque` whose folder is opened with a guarded disk."""
    from diskcache import Deque

    return rebound(Deque, {"Cache": _opener(guard)})


def index(guard: Guard) -> Type[Any]:
    """`diskcache.Index` whose folder is opened with a guarded disk."""
    from diskcache import Index

    return rebound(Index, {"Cache": _opener(guard)})


def _opener(guard: Guard) -> Any:
    from diskcache import Cache

    return functools.partial(Cache, disk=disk(guard))


class _DiskLoader(Loader):
    """A loader whose errors diskcache doesn't take for a file that has gone: it would try again."""

    def load(self, file: Any, **words: Any) -> Any:
        try:
            return super().load(file, **words)
        except (EOFError, OSError) as error:
            raise Unloadable(f"its load raised {type(error).__name__}") from error

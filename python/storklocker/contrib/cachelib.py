"""cachelib's caches under a guard, which also serve Flask-Caching.

    from storklocker.contrib import cachelib as guarded

    cache = guarded.protected(cachelib.FileSystemCache("cache"), guard)
    cache = guarded.protected(cachelib.RedisCache("localhost"), guard)

A refused entry is a miss. Its key is logged, or is the context of the guard's `on_refusal`. If you
can't replace a cache, replace its serializer:

    cache.serializer = guarded.serializer(guard)        # `redis_serializer` for RedisCache
"""

from __future__ import annotations

from typing import Any, Callable, TypeVar

from .._guard import Guard
from .._refusal import CONTEXT
from ._misses import CacheLoader, about
from ._rebinding import rebound

T = TypeVar("T")


def protected(cache: T, guard: Guard) -> T:
    """The cache, with its entries loaded through the guard. Raises TypeError for a cache without a
    serializer, such as `MemcachedCache`, whose client unpickles by itself.
    """
    made: Any = cache
    kinds = {kind.__name__ for kind in type(made).__mro__}
    if not hasattr(made, "serializer"):
        raise TypeError(f"{type(made).__name__} has no serializer, and unpickles by itself")
    made.serializer = (redis_serializer if "RedisCache" in kinds else serializer)(guard)
    for name in ("get", "get_many", "get_dict"):
        setattr(made, name, _telling(getattr(made, name)))
    return cache


def serializer(guard: Guard) -> Any:
    """The serializer for caches in memory, in files and in uWSGI."""
    from cachelib.serializers import BaseSerializer

    return _serializer(BaseSerializer, guard)


def redis_serializer(guard: Guard) -> Any:
    """The serializer for `RedisCache`."""
    from cachelib.serializers import RedisSerializer

    return _serializer(RedisSerializer, guard)


def _telling(get: Callable[..., Any]) -> Callable[..., Any]:
    """A method that reads the entries of some keys, with them as the context of refusals."""

    def telling(*keys: Any) -> Any:
        with about(keys[0] if len(keys) == 1 else keys):
            return get(*keys)

    return telling


def _serializer(plain: Any, guard: Guard) -> Any:
    loader = CacheLoader(guard)

    class Serializer(rebound(plain, {"pickle": _Telling(loader)})):  # type: ignore[misc]
        def _warn(self, error: Exception) -> None:
            if not isinstance(error, guard.UnpicklingError):  # of which it is told already
                super()._warn(error)

        def load(self, file: Any) -> Any:
            try:
                return super().load(file)
            except EOFError as error:  # an empty file, which cachelib takes for no miss
                loader.misses.tell(CONTEXT.get(), error)
                return None

    return Serializer()


class _Telling:
    """The loader in the role of the module `pickle`. It tells of what isn't loaded."""

    def __init__(self, loader: CacheLoader) -> None:
        self._loader = loader

    def __getattr__(self, name: str) -> Any:
        return getattr(self._loader, name)

    def load(self, file: Any) -> Any:
        return self._told(self._loader.load, file)

    def loads(self, data: Any) -> Any:
        return self._told(self._loader.loads, data)

    def _told(self, load: Callable[[Any], Any], source: Any) -> Any:
        try:
            return load(source)
        except self._loader.UnpicklingError as error:
            self._loader.misses.tell(CONTEXT.get(), error)
            raise

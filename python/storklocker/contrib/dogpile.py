"""dogpile.cache's regions under a guard.

    from storklocker.contrib import dogpile as guarded

    region = make_region(**guarded.serialization(guard))
    region.configure("dogpile.cache.redis", wrap=[guarded.proxy(guard)])

A refused entry is a miss: `get` returns NO_VALUE, and `get_or_create` creates the value again. Its
key is logged, or is the context of the guard's `on_refusal`.
"""

from __future__ import annotations

import functools
from typing import Any, Callable, Dict, Sequence, Type

from .._guard import Guard
from ._loading import Loader
from ._misses import REFUSED, CacheLoader, about


def serialization(guard: Guard) -> Dict[str, Callable[[Any], Any]]:
    """The arguments of `make_region` for the serializer and the deserializer."""
    return {"serializer": guard.dumps, "deserializer": Loader(guard).loads}


def proxy(guard: Guard) -> Type[Any]:
    """The class for the argument `wrap` of `configure`, which drops what the guard refuses.

    `configure` raises TypeError for a backend that returns objects and not bytes, such as those of
    memcached: their client unpickles by itself what the server marks as a pickle.
    """
    from dogpile.cache.proxy import ProxyBackend

    kept = functools.partial(_kept, CacheLoader(guard))

    class GuardedProxy(ProxyBackend):  # type: ignore[misc]
        def wrap(self, backend: Any) -> Any:
            _require_bytes(backend)
            return super().wrap(backend)

        def get(self, key: Any) -> Any:
            raise TypeError("make_region needs the deserializer of `serialization`")

        def get_multi(self, keys: Sequence[Any]) -> Any:
            return [self.get(key) for key in keys]

        def get_serialized(self, key: Any) -> Any:
            return kept(key, self.proxied.get_serialized(key))

        def get_serialized_multi(self, keys: Sequence[Any]) -> Any:
            stored = self.proxied.get_serialized_multi(keys)
            return [kept(key, each) for key, each in zip(keys, stored)]

    return GuardedProxy


def _kept(loader: CacheLoader, key: Any, stored: Any) -> Any:
    """What is stored, or NO_VALUE if the guard refuses it. A region stores its metadata as JSON, a
    vertical bar, and the pickle of the value.
    """
    from dogpile.cache.api import NO_VALUE

    if not isinstance(stored, bytes):
        return stored
    try:
        with about(key):
            loader.loads(stored.partition(b"|")[2])
    except REFUSED as error:
        loader.misses.tell(key, error)
        return NO_VALUE
    return stored


def _require_bytes(backend: Any) -> None:
    """Raises TypeError unless the backend returns the bytes that are stored."""
    from dogpile.cache.api import BytesBackend
    from dogpile.cache.backends.memory import MemoryBackend
    from dogpile.cache.backends.null import NullBackend

    while hasattr(backend, "proxied"):
        backend = backend.proxied
    if not isinstance(backend, (BytesBackend, MemoryBackend, NullBackend)):
        raise TypeError(
            f"{type(backend).__name__} returns objects, which its client unpickles by itself: use"
            " a backend that returns bytes, such as dogpile.cache.redis"
        )

"""Django's cache backends under a guard: in memory, in files, in a database and in Redis; and a
serializer for sessions.

    CACHES = {"default": {
        "BACKEND": "storklocker.contrib.django.FileBasedCache",
        "LOCATION": "/var/cache/project",
        "OPTIONS": {"GUARD": "project.pickles.guard"},
    }}

`GUARD` is a `Guard`, or the dotted name of one. A refused entry is a miss: `get` returns its
default, `incr` raises ValueError, `touch` and `has_key` return False. Its key is logged, or is the
context of the guard's `on_refusal`. `"FORGET": True` also deletes a refused entry. With
`"CHECK_ON_SET": True`, which is for development, storing a value that the guard wouldn't load
raises `Refused`. In a file, the expiry is a pickle before that of the value, and both go through
the guard.
"""

from __future__ import annotations

import binascii
import contextlib
import pickle
import threading
import zlib
from typing import Any, Dict, Iterable, Iterator, NamedTuple, Type

from .._guard import Guard
from ._loading import Unloadable
from ._misses import CacheLoader, about
from ._rebinding import rebound

_REFUSED = (pickle.UnpicklingError, EOFError, zlib.error, binascii.Error)
_ABSENT = object()


def LocMemCache(location: str, params: Dict[str, Any]) -> Any:
    """Django's `LocMemCache`."""
    from django.core.cache.backends import locmem

    return _made(locmem.LocMemCache, location, params)


def FileBasedCache(location: str, params: Dict[str, Any]) -> Any:
    """Django's `FileBasedCache`."""
    from django.core.cache.backends import filebased

    return _made(filebased.FileBasedCache, location, params)


def DatabaseCache(location: str, params: Dict[str, Any]) -> Any:
    """Django's `DatabaseCache`."""
    from django.core.cache.backends import db

    return _made(db.DatabaseCache, location, params)


def BuiltinRedisCache(location: Any, params: Dict[str, Any]) -> Any:
    """Django's own `RedisCache`, since Django 4.0."""
    from django.core.cache.backends import redis

    settings = _settings_of(params)
    serializer = rebound(redis.RedisSerializer, {"pickle": settings.loader})
    settings.params["OPTIONS"]["serializer"] = serializer
    return _missing(redis.RedisCache, settings, _Counting)(location, settings.params)


def RedisCache(location: Any, params: Dict[str, Any]) -> Any:
    """`RedisCache` of django-redis."""
    from django_redis.cache import RedisCache as Plain

    settings = _settings_of(params)
    serializer = f"{__name__}._RedisSerializer"
    settings.params["OPTIONS"].update(SERIALIZER=serializer, LOADER=settings.loader)
    return _missing(Plain, settings)(location, settings.params)


def session_serializer(guard: Guard) -> Type[Any]:
    """A class to be named by `SESSION_SERIALIZER`, in place of Django's `PickleSerializer`. A
    refused session is empty, and is logged or reported like a cache entry.
    """
    loader = CacheLoader(guard)

    class SessionSerializer:
        def dumps(self, session: Any) -> bytes:
            return loader.dumps(session, pickle.HIGHEST_PROTOCOL)

        def loads(self, data: Any) -> Any:
            try:
                session = loader.loads(data)
            except _REFUSED as error:
                loader.misses.tell("session", error)
                return {}
            return session if isinstance(session, dict) else {}

    return SessionSerializer


class _RedisSerializer:
    """The `SERIALIZER` for django-redis."""

    def __init__(self, options: Dict[str, Any]) -> None:
        self.dumps, self.loads = options["LOADER"].dumps, options["LOADER"].loads


class _Pickle(NamedTuple):
    """A value that isn't loaded yet."""

    data: bytes


class _DjangoLoader(CacheLoader):
    """The loader of a cache."""

    def __init__(self, guard: Guard, check_on_set: bool) -> None:
        super().__init__(guard, check_on_set)
        self._here = threading.local()

    def load(self, file: Any, **words: Any) -> Any:
        """Loads the expiry of a file's value, a number or None, which precedes the value."""
        try:
            expiry = super().load(file, **words)
        except OSError as error:
            raise Unloadable("its load raised OSError") from error
        if expiry is None or isinstance(expiry, (int, float)):
            return expiry
        raise Unloadable("the expiry is not a number")

    def loads(self, data: Any, **words: Any) -> Any:
        """Loads a value, or leaves it for later."""
        if getattr(self._here, "is_later", False):
            return _Pickle(data)
        return super().loads(data, **words)

    @contextlib.contextmanager
    def later(self) -> Iterator[None]:
        """Leaves values for later within the block, for this thread."""
        before, self._here.is_later = getattr(self._here, "is_later", False), True
        try:
            yield
        finally:
            self._here.is_later = before


class _Settings(NamedTuple):
    """What the options of a cache say."""

    loader: _DjangoLoader
    forget: bool
    params: Dict[str, Any]


def _made(plain: Type[Any], location: str, params: Dict[str, Any]) -> Any:
    settings = _settings_of(params)
    kind = rebound(plain, {"pickle": settings.loader})
    return _missing(kind, settings)(location, settings.params)


def _settings_of(params: Dict[str, Any]) -> _Settings:
    options = dict(params.get("OPTIONS", {}))
    guard, forget = options.pop("GUARD", None), bool(options.pop("FORGET", False))
    check_on_set = bool(options.pop("CHECK_ON_SET", False))
    if isinstance(guard, str):
        from django.utils.module_loading import import_string

        guard = import_string(guard)
    if not isinstance(guard, Guard):
        raise TypeError('OPTIONS["GUARD"] must be a storklocker.Guard, or the dotted name of one')
    loader = _DjangoLoader(guard, check_on_set)
    return _Settings(loader, forget, {**params, "OPTIONS": options})


class _Missing:
    """A mixin for backends that treats a refused entry as missing."""

    _forget: bool
    _loader: _DjangoLoader

    def _forgotten(self, otherwise: Any, key: Any, version: Any, error: Exception) -> Any:
        cache: Any = self
        self._loader.misses.tell(key, error)
        if self._forget:
            cache.delete(key, version=version)
        return otherwise

    def get(self, key: Any, default: Any = None, version: Any = None, **more: Any) -> Any:
        plain: Any = super()
        try:
            with about(key):
                return plain.get(key, default, version=version, **more)
        except _REFUSED as error:
            return self._forgotten(default, key, version, error)

    def set(self, key: Any, *given: Any, **named: Any) -> Any:
        with about(key):
            return getattr(super(), "set")(key, *given, **named)

    def add(self, key: Any, *given: Any, **named: Any) -> Any:
        with about(key):
            return getattr(super(), "add")(key, *given, **named)

    def has_key(self, key: Any, version: Any = None, **more: Any) -> bool:
        return self.get(key, _ABSENT, version, **more) is not _ABSENT

    def touch(self, key: Any, *given: Any, **named: Any) -> bool:
        # some backends touch a value without loading it
        version = given[1] if len(given) > 1 else named.get("version")
        plain: Any = getattr(super(), "touch")
        return self.has_key(key, version) and bool(plain(key, *given, **named))

    def incr(self, key: Any, delta: int = 1, version: Any = None, **more: Any) -> Any:
        return self._counted("incr", key, delta, version, more)

    def decr(self, key: Any, delta: int = 1, version: Any = None, **more: Any) -> Any:
        return self.incr(key, -delta, version, **more)

    def incr_version(self, key: Any, delta: int = 1, version: Any = None, **more: Any) -> Any:
        return self._counted("incr_version", key, delta, version, more)

    def decr_version(self, key: Any, delta: int = 1, version: Any = None, **more: Any) -> Any:
        return self.incr_version(key, -delta, version, **more)

    def _counted(self, name: str, key: Any, delta: int, version: Any, more: Any) -> Any:
        value = None
        try:
            with about(key):
                value = getattr(super(), name)(key, delta, version=version, **more)
        except _REFUSED as error:
            self._forgotten(None, key, version, error)
        if value is None:
            raise ValueError(f"Key {key!r} not found")
        return value

    def get_many(self, keys: Iterable[Any], version: Any = None, **more: Any) -> Any:
        plain = getattr(super(), "get_many")
        try:
            with self._loader.later():
                found = plain(keys, version=version, **more)
        except _REFUSED:  # what isn't packed as the backend packs it
            return self._one_by_one(list(keys), version, more)
        values = {key: self._value_of(value, key, version) for key, value in found.items()}
        return {key: value for key, value in values.items() if value is not _ABSENT}

    def _one_by_one(self, keys: Any, version: Any, more: Any) -> Dict[Any, Any]:
        if len(keys) == 1:
            error = pickle.UnpicklingError("the entry is damaged")
            return self._forgotten({}, keys[0], version, error) or {}
        found = [self.get_many([key], version=version, **more) for key in keys]
        return {key: value for each in found for key, value in each.items()}

    def _value_of(self, value: Any, key: Any, version: Any) -> Any:
        """A value that may have been left for later, or `_ABSENT`."""
        if not isinstance(value, _Pickle):
            return value
        try:
            with about(key):
                return CacheLoader.loads(self._loader, value.data)
        except _REFUSED as error:
            return self._forgotten(_ABSENT, key, version, error)


class _Counting(_Missing):
    """`_Missing` for backends that count a value without loading it."""

    def _counted(self, name: str, key: Any, delta: int, version: Any, more: Any) -> Any:
        if not self.has_key(key, version):
            raise ValueError(f"Key {key!r} not found")
        return super()._counted(name, key, delta, version, more)


def _missing(plain: Type[Any], settings: _Settings, mixin: Type[Any] = _Missing) -> Type[Any]:
    """The backend with refused entries treated as missing."""
    words = {"_forget": settings.forget, "_loader": settings.loader, "__module__": __name__}
    return type(plain.__name__, (mixin, plain), words)

"""Values in Redis, read by commands that change nothing."""

from __future__ import annotations

import itertools
import re
from typing import TYPE_CHECKING, Any, Dict, Iterator, Tuple
from urllib.parse import urlsplit

from .file import File
from .queues import MOST, SECONDS, Asked, is_plain, spelled

if TYPE_CHECKING:
    from .files import Files

_KEYS = 1000
"""How many keys are asked for at once."""
_AT_ONCE = 1 << 26
"""The most bytes of a list, a hash, a set or a stream that is read at once; what has more is read
value by value.
"""

_DATABASE = re.compile("/?|/[0-9]{1,5}")

Member = Tuple[str, bytes]
"""Where a value is in the one of its key, and its bytes."""


class _Changed(Exception):
    """A value was changed while it was read in parts."""


def values_in_redis(asked: Asked, files: Files) -> Iterator[File]:
    """The values of the keys that match a pattern."""
    redis = asked.package("redis")
    if not _DATABASE.fullmatch(urlsplit(asked.url).path):
        raise OSError(f"{asked.shown}: behind the server stands the number of a database, or none")
    words = {"socket_timeout": SECONDS, "socket_connect_timeout": SECONDS}
    try:
        client = redis.Redis.from_url(asked.url, decode_responses=False, **words)
        for key in client.scan_iter(asked.word("match", "*"), _KEYS):
            if files.choice.takes(f"{asked.shown}/{spelled(key)}"):
                yield from _values_of(asked, _Reader(redis, client, key))
    except (redis.RedisError, ValueError) as error:
        raise OSError(f"{asked.shown} can't be read: {type(error).__name__}: {error}") from None


def _values_of(asked: Asked, reader: "_Reader") -> Iterator[File]:
    """The values of a key, and the key itself unless it is a plain text."""
    place = spelled(reader.key)
    if not is_plain(reader.key):
        yield asked.value(f"{place}!the key", reader.key)
    try:
        for name, value in reader.members():
            yield asked.value(f"{place}!{name}" if name else place, value)
    except _Changed as error:
        yield asked.unread(place, str(error))
    except reader.redis.ConnectionError:
        raise
    except reader.redis.RedisError as error:
        yield asked.unread(place, f"it can't be read: {error}")


class _Reader:
    """Reads the value of a key. One that is read in parts must not change meanwhile."""

    def __init__(self, redis: Any, client: Any, key: bytes) -> None:
        self.redis, self._client, self.key = redis, client, key

    def members(self) -> Iterator[Member]:
        """The values; none if the key has gone since."""
        kind = self._client.type(self.key).decode("ascii", "replace")
        if kind == "none":
            return
        readers = {
            "string": self._string, "list": self._list, "hash": self._hash, "set": self._set,
            "zset": self._sorted_set, "stream": self._stream,
        }
        if kind not in readers:
            raise self.redis.ResponseError(f"nobody knows what readers make of a {kind}")
        if kind == "string" or 0 < self._size() <= _AT_ONCE:
            yield from readers[kind](True)
            return
        with self._client.pipeline() as watch:
            watch.watch(self.key)
            yield from readers[kind](False)
            watch.multi()
            watch.type(self.key)
            try:
                watch.execute()
            except self.redis.WatchError:
                raise _Changed("it changed while it was read value by value") from None

    def _size(self) -> int:
        """About the bytes of the value; 0 if the server doesn't say."""
        try:
            return int(self._client.memory_usage(self.key, samples=0) or 0)
        except self.redis.ResponseError:
            return 0

    def _string(self, _at_once: bool) -> Iterator[Member]:
        size = self._client.strlen(self.key)
        if size > MOST:
            raise self.redis.ResponseError(f"it has {size:,} bytes, more than {MOST:,}")
        value = self._client.getrange(self.key, 0, MOST)
        if value or self._client.exists(self.key):
            yield "", value

    def _list(self, at_once: bool) -> Iterator[Member]:
        for number in [0] if at_once else itertools.count():
            last = -1 if at_once else number
            found = self._client.lrange(self.key, number, last)
            yield from ((str(number + more), value) for more, value in enumerate(found))
            if not found:
                return

    def _hash(self, at_once: bool) -> Iterator[Member]:
        if at_once:
            found = sorted(self._client.hgetall(self.key).items())
            return _of_pairs(found)
        return _of_pairs(self._client.hscan_iter(self.key, count=1))

    def _set(self, at_once: bool) -> Iterator[Member]:
        if at_once:
            return _numbered(sorted(self._client.smembers(self.key)))
        return _numbered(self._client.sscan_iter(self.key, count=1))

    def _sorted_set(self, at_once: bool) -> Iterator[Member]:
        if at_once:
            return _numbered(self._client.zrange(self.key, 0, -1))
        return _numbered(value for value, _ in self._client.zscan_iter(self.key, count=1))

    def _stream(self, at_once: bool) -> Iterator[Member]:
        start, words = "-", {} if at_once else {"count": 1}  # type: str, Dict[str, int]
        while True:
            found = self._client.xrange(self.key, min=start, **words)
            for number, fields in found:
                start = f"({number.decode()}"
                for name, value in _of_pairs(fields.items()):
                    yield f"{number.decode()}!{name}", value
            if at_once or not found:
                return


def _numbered(values: Any) -> Iterator[Member]:
    return ((str(number), value) for number, value in enumerate(values))


def _of_pairs(pairs: Any) -> Iterator[Member]:
    """The values behind names, and the names that aren't plain texts."""
    for name, value in pairs:
        if not is_plain(name):
            yield f"{spelled(name)}!the name", name
        yield spelled(name), value

"""Keeps the names that a list lacks in a file that many processes share.

Each line is a JSON object, written by one call. A process that is killed leaves at most half a
line, which is passed over. What comes from a stranger is bounded: names that a module and a class
can have, their length, their number, and the size of the file.
"""

from __future__ import annotations

import atexit
import contextlib
import fcntl
import itertools
import json
import logging
import os
import re
import threading
import time
import weakref
from typing import Any, Callable, Dict, Iterator, NamedTuple, Optional, Tuple, Union

from . import _names
from ._refusal import Refusal
from ._writing import replace

LARGEST = 1 << 22
"""The most bytes of a file, from which its lines are merged to at most half of that."""
MOST = 5000
"""The most names of a file, and of a process."""
EVERY = 10.0
"""A name that was seen again is written after so many seconds, at its next sight or at the end."""
_LONGEST, _LONGEST_KEY = 200, 80
_OF_ONE = 1000
"""The most names that are taken from one pickle."""
_TRIES, _PAUSE = 200, 0.001

_LOG = logging.getLogger("storklocker")
_MODULE = re.compile(r"[^\W\d][\w-]*(\.[^\W\d][\w-]*)*")
Pair = Tuple[str, str]
Key = Tuple[str, ...]
"""A module and a name; behind `getattr` perhaps an enum of whose members it is asked for."""
_GETATTR: Pair = ("builtins", "getattr")


class Seen(NamedTuple):
    """How often a name was missing. The times are seconds since 1970."""

    key: str
    """What was loaded when it was first missing, as `storklocker.context` named it."""
    times: int
    first: int
    last: int

    def and_(self, other: Seen) -> Seen:
        """Both together."""
        earlier = self if self.first <= other.first else other
        times, last = self.times + other.times, max(self.last, other.last)
        return Seen(earlier.key, times, earlier.first, last)


def is_name(module: Any, name: Any) -> bool:
    """Whether a module and a class can have these names, and they aren't long."""
    return (
        isinstance(module, str)
        and isinstance(name, str)
        and len(module.encode()) <= _LONGEST
        and len(name.encode()) <= _LONGEST
        and _MODULE.fullmatch(module) is not None
        and all(part.isidentifier() for part in name.split("."))
    )


def _line(key: Key, seen: Seen) -> str:
    return json.dumps({**dict(zip(("module", "name", "of"), key)), **seen._asdict()}) + "\n"


def _records(text: str) -> Iterator[Tuple[Key, Seen]]:
    for line in text.splitlines():
        with contextlib.suppress(ValueError, KeyError, TypeError, RecursionError):
            held = json.loads(line)
            key = (held["module"], held["name"], *((held["of"],) if "of" in held else ()))
            numbers = [held[word] for word in ("times", "first", "last")]
            is_fine = is_name(*key[:2]) and all(map(_is_dotted, key[2:]))
            if is_fine and all(type(it) is int and 0 <= it < 1 << 62 for it in numbers):
                yield key, Seen(str(held["key"])[:_LONGEST_KEY], *numbers)


def _is_dotted(name: Any) -> bool:
    module, _, own = name.rpartition(".")
    return is_name(module, own)


def read_log(text: str) -> Dict[Key, Seen]:
    """The names in the text of a file. Lines that are none of ours are passed over."""
    found: Dict[Key, Seen] = {}
    for key, seen in _records(text):
        found[key] = found[key].and_(seen) if key in found else seen
    return found


def _merged(text: str) -> str:
    """The lines of a file, one for each name. The names that came last are dropped if these are too
    many.
    """
    found = sorted(read_log(text).items(), key=lambda it: it[1].first)[:MOST]
    lines, room = [], LARGEST // 2
    for line in itertools.starmap(_line, found):
        room -= len(line)
        if room < 0:
            break
        lines.append(line)
    return "".join(lines)


class Learner:
    """An `on_refusal` that writes the missing names into a file, and calls another one."""

    def __init__(
        self,
        file: Union[str, os.PathLike[str]],
        hook: Optional[Callable[[Refusal], Any]] = None,
        fix_imports: bool = True,
    ) -> None:
        self._file, self._hook = os.path.abspath(os.fspath(file)), hook
        self._fixes = fix_imports
        self.forget()
        with open(os.open(self._file, os.O_RDWR | os.O_CREAT, 0o666), "rb") as opened:
            if opened.read(1) not in (b"", b"{", b"\n"):
                raise ValueError(f"{self._file!r} has something else than learned names")
        _ALL.add(self)

    def forget(self) -> None:
        """Starts from nothing, as in a process that was forked: the parent writes what it knows."""
        self._lock = threading.Lock()
        self._known: Dict[Key, Optional[Seen]] = {}
        self._due = 0.0
        self._has_failed = False

    def __reduce__(self) -> Tuple[Any, ...]:
        return (Learner, (self._file, self._hook, self._fixes))

    def __call__(self, refusal: Refusal) -> None:
        if self._lock.acquire(timeout=1):  # (a signal handler may come in the middle)
            try:
                self._take(refusal)
            finally:
                self._lock.release()
        if self._hook is not None:
            self._hook(refusal)

    def _take(self, refusal: Refusal) -> None:
        now, what, is_new = int(time.time()), _shown(refusal.context), False
        for key in itertools.islice(self._keys_of(refusal), _OF_ONE):
            seen, before = Seen(what, 1, now, now), self._known.get(key)
            if key not in self._known:
                if len(self._known) >= MOST:
                    self._fail(f"more than {MOST:,} names are missing")
                    continue
                is_new = True
            self._known[key] = seen if before is None else before.and_(seen)
        if is_new or time.monotonic() >= self._due:
            self._write()

    def _keys_of(self, refusal: Refusal) -> Iterator[Key]:
        """The names that are missing, and the enums of whose members `getattr` is asked for."""
        is_old = self._fixes and _names.are_old(refusal.data)
        for module, name in refusal.missing:
            if module is not None and name is not None and is_name(module, name):
                yield _names.renamed((module, name)) if is_old else (module, name)
        if _GETATTR[1].encode() in refusal.data:
            from .scanning.members import Members  # few pickles ask for any

            members = Members()
            members.look_in(refusal.data)
            yield from ((*_GETATTR, name) for name in members.enums)

    def write(self) -> None:
        """Writes what hasn't been written."""
        if self._lock.acquire(timeout=1):
            try:
                self._write()
            finally:
                self._lock.release()

    def _write(self) -> None:
        left = [(pair, seen) for pair, seen in self._known.items() if seen is not None]
        self._due = time.monotonic() + EVERY
        try:
            if left and _append(self._file, "".join(itertools.starmap(_line, left))):
                self._known.update((pair, None) for pair, _ in left)
        except OSError as error:
            self._fail(str(error))

    def _fail(self, why: str) -> None:
        """Says once that something isn't written: a service goes on."""
        if not self._has_failed:
            self._has_failed = True
            _LOG.warning("Not all names are learned in %s: %s", self._file, why)


def _shown(key: Any) -> str:
    """The key as a text, whatever it is."""
    try:
        return "" if key is None else str(key)[:_LONGEST_KEY]
    except Exception:
        return "?"


def _append(file: str, lines: str) -> bool:
    """Adds lines to a file, merged with its own if it becomes large. False if others hold it all
    the time.
    """
    with _held(file) as (descriptor, size):
        if descriptor < 0:
            return False
        is_cut = size > 0 and os.pread(descriptor, 1, size - 1) != b"\n"
        if size + len(lines) > LARGEST:
            text = os.pread(descriptor, size, 0).decode("utf-8", "replace")
            replace(file, _merged(text + "\n" * is_cut + lines))
        else:
            data = ("\n" * is_cut + lines).encode()
            if os.write(descriptor, data) < len(data):
                raise OSError("there is no room for its lines")
        return True


@contextlib.contextmanager
def _held(file: str) -> Iterator[Tuple[int, int]]:
    """The file, locked, and its size; -1 if it can't be locked in time."""
    for _ in range(_TRIES):
        descriptor = os.open(file, os.O_RDWR | os.O_CREAT | os.O_APPEND | os.O_CLOEXEC, 0o666)
        try:
            if _is_locked(descriptor, file):
                yield descriptor, os.fstat(descriptor).st_size
                return
        finally:
            fcntl.flock(descriptor, fcntl.LOCK_UN)  # (a child that was forked meanwhile holds it)
            os.close(descriptor)
        time.sleep(_PAUSE)
    yield -1, 0


def _is_locked(descriptor: int, file: str) -> bool:
    """Whether the lock is ours, and of the file that has the name now."""
    try:
        fcntl.flock(descriptor, fcntl.LOCK_EX | fcntl.LOCK_NB)
        return os.path.samestat(os.fstat(descriptor), os.stat(file))
    except (BlockingIOError, FileNotFoundError):
        return False


_ALL: weakref.WeakSet[Learner] = weakref.WeakSet()


def _write_all() -> None:
    for learner in list(_ALL):
        learner.write()


def _forget_all() -> None:
    for learner in list(_ALL):
        learner.forget()


atexit.register(_write_all)
os.register_at_fork(after_in_child=_forget_all)

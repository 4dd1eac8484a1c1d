"""A guard whose list file is looked at again."""

from __future__ import annotations

import logging
import os
import time
from typing import Any, Dict, NamedTuple, Optional, Tuple, Type, Union

from ._answers import Verdict
from ._guard import Guard
from ._lists import AllowList

_LOG = logging.getLogger("storklocker")
_NOTHING = AllowList([])


class _Look(NamedTuple):
    """What tells one state of a file from another."""

    changed: int
    size: int
    number: int


def guard_of(
    kind: Type[Guard],
    file: Union[str, os.PathLike[str]],
    reload: Optional[float],
    settings: Dict[str, Any],
) -> Guard:
    """The guard of a list file, which is looked at again every so many seconds."""
    if reload is None:
        return kind(AllowList.from_file(file), **settings)
    if isinstance(reload, bool) or not isinstance(reload, (int, float)) or not reload >= 0:
        raise ValueError(f"reload must be a number of seconds or None, not {reload!r}")
    if os.fsdecode(file).startswith("@"):  # (a shipped list stays as it is)
        return kind(AllowList.from_file(file), **settings)
    name = os.path.abspath(os.fspath(file))
    look, text = _read(name)
    return ReloadingGuard(kind(AllowList.from_text(text), **settings), name, reload, look)


def _look_at(status: os.stat_result) -> _Look:
    return _Look(status.st_mtime_ns, status.st_size, status.st_ino)


def _read(file: str) -> Tuple[Optional[_Look], bytes]:
    """The text of a file, and how it looks: None if it changed while it was read."""
    with open(file, "rb") as opened:
        before = _look_at(os.fstat(opened.fileno()))
        text = opened.read()
        after = _look_at(os.fstat(opened.fileno()))
    return (before if before == after else None), text


class ReloadingGuard(Guard):
    """Hands each load as a whole to the guard of the list as it is now. It has no list itself: what
    would pass that guard by is refused.
    """

    __slots__ = ("_held", "_file", "_every", "_look", "_told_of", "_due")

    def __init__(
        self, held: Guard, file: str, every: float, look: Optional[_Look] = None
    ) -> None:
        super().__init__(_NOTHING, **held.settings)
        self._held, self._file, self._every, self._look = held, file, every, look
        self._told_of: Optional[_Look] = None
        self._due = 0.0 if look is None else time.monotonic() + every

    def now(self) -> Guard:
        if time.monotonic() >= self._due:
            self._renew()
        return self._held

    def _renew(self) -> None:
        """Reads the file if it has changed. A fault is logged once, and leaves the list as it was.
        """
        self._due = time.monotonic() + self._every  # (first, for the other threads)
        look: Optional[_Look] = None
        try:
            look = _look_at(os.stat(self._file))
            if look == self._look:
                return
            look, text = _read(self._file)
            if look is None:
                return  # (it is being written: the next look finds it whole)
            held = self._held.like(allow=AllowList.from_text(text))
        except (OSError, ValueError, MemoryError) as error:
            if isinstance(error, ValueError):
                self._look = look  # (what can't be read may be readable later)
            if (look or _ABSENT) != self._told_of:
                self._told_of = look or _ABSENT
                told = "The list file %s is not read, and the list stays: %s"
                _LOG.error(told, self._file, error)
            return
        _LOG.info("The list file %s has changed: it permits %d names", self._file, len(held.allow))
        self._held, self._look, self._told_of = held, look, None

    def __getattr__(self, name: str) -> Any:
        if name in ReloadingGuard.__slots__:
            raise AttributeError(name)
        return getattr(self.now(), name)

    def __repr__(self) -> str:
        return f"Guard.from_file({self._file!r}, reload={self._every!r})"

    def __reduce__(self) -> Tuple[Any, ...]:
        return (ReloadingGuard, (self._held, self._file, self._every))

    def like(self, **changed: Any) -> Guard:
        return ReloadingGuard(self._held.like(**changed), self._file, self._every, self._look)

    def for_children(self) -> Guard:
        return ReloadingGuard(self._held.for_children(), self._file, self._every)

    @property
    def allow(self) -> AllowList:
        """The allow list, as it is now."""
        return self.now().allow

    def loads(self, data: Any, /, **named: Any) -> Any:
        """`Guard.loads` under the list as it is now."""
        return self.now().loads(data, **named)

    def load(self, file: Any, **named: Any) -> Any:
        """`Guard.load` under the list as it is now."""
        return self.now().load(file, **named)

    async def loads_async(self, data: Any, /, **named: Any) -> Any:
        """`Guard.loads_async` under the list as it is now."""
        return await self.now().loads_async(data, **named)

    def check(self, data: bytes) -> Verdict:
        """`Guard.check` under the list as it is now."""
        return self.now().check(data)

    @property
    def Unpickler(self) -> Any:
        """`Guard.Unpickler`. Each takes the list as it is when it is made."""
        if self._unpickler is None:
            from ._unpickler import kind_of  # few guards read with one

            plain: Any = kind_of(self, True)
            now = self.now

            class Unpickler(plain):  # type: ignore[misc]
                def __init__(self, file: Any, **named: Any) -> None:
                    self.guard = now()
                    super().__init__(file, **named)

            self._unpickler = Unpickler
        return self._unpickler

    def told(self, verdict: Verdict, data: bytes, length: int = 0, start: int = 0) -> Any:
        return self.now().told(verdict, data, length, start)

    def refusal_of(self, data: bytes) -> Any:
        return self.now().refusal_of(data)

    def load_accepted(self, data: bytes) -> Any:
        """`Guard.load_accepted` under the list as it is now."""
        return self.now().load_accepted(data)

    def loads_front(self, data: Any, *words: Any) -> Any:
        return self.now().loads_front(data, *words)


_ABSENT = _Look(0, 0, 0)
"""How a file looks that isn't there."""

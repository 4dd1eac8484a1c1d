"""Members of enums, as Python 3.11.0 to 3.11.3 pickle them: by `getattr`, which may get anything.

It is harmless where a pickle calls it just so: with a class that is known to be a harmless enum, as
imported, and a name that is written there. What it answers may be no more than a value: nothing
calls it, or sets its state. That is asked of each pickle, and also of what one Unpickler makes of
all of them, which keeps its memo.
"""

from __future__ import annotations

import re
from typing import Any, Callable, List

from .budget import LOOKED_AT, Budget
from .calls import Calls, is_import
from .dangers import known
from .lenient import Walk
from .members import GETATTR
from .report import Finding
from .severity import REFUSED, UNREADABLE
from .source import Source

_NAME = re.compile(r"[A-Za-z][A-Za-z0-9_]*")
_RECEIVING = b"baesu\x90"
"""The instructions that change what is on top: BUILD, APPEND, APPENDS, SETITEM, SETITEMS, ADDITEMS.
"""


class _Otherwise(Exception):
    """`getattr` is used otherwise, or its answer is."""


class _Member:
    """What `getattr` answers."""

    may_be_text, name, brackets, front = False, "", "", None

    def pieces(self) -> List[Any]:
        """A call that has it isn't told."""
        return []


class _Members(Calls):
    """Follows pickles, and raises `_Otherwise` where they don't use `getattr` for members alone."""

    def __init__(self, source: Source, at: int) -> None:
        super().__init__(source, at, Walk.most, lambda name, call: None)

    def has_answer(self) -> bool:
        """Whether `getattr`, or what it answers, is on top."""
        return type(self._stack[-1]) is _Member or _is_getattr(self._stack[-1])

    def _pop(self) -> Any:
        return _passed(super()._pop())

    def to_mark(self) -> None:
        for it in self._stack:
            _passed(it)
        super().to_mark()

    def _called(self, function: Any, words: List[Any]) -> Any:
        if type(function) is _Member:
            raise _Otherwise
        return super()._called(_passed(function), words)

    def reduce(self) -> None:
        """REDUCE, also of `getattr`."""
        if len(self._stack) < 2 or not _is_getattr(self._stack[-2]):
            Calls.acts[ord("R")](self)
            return
        given = getattr(self._stack[-1], "items", [])
        is_pair = getattr(self._stack[-1], "brackets", "") == "(,)" and len(given) == 2
        if not (is_pair and _is_enum(given[0]) and type(given[1]) is str):
            raise _Otherwise
        if not _NAME.fullmatch(given[1]):
            raise _Otherwise
        self._stack[-2:] = [_Member()]


def _passed(value: Any) -> Any:
    """A value that something takes, which may be anything but `getattr`."""
    if _is_getattr(value):
        raise _Otherwise
    return value


def _is_getattr(value: Any) -> bool:
    return is_import(value) and value.name == GETATTR


def _is_enum(value: Any) -> bool:
    """Whether this is the class of an enum, as it is imported."""
    return is_import(value) and value.name in known().enums


def _receiving(act: Callable[[Any], object]) -> Callable[[Any], object]:
    def received(walk: _Members) -> None:
        act(walk)
        if walk.has_answer():
            raise _Otherwise

    return received


_Members.acts = {
    code: _receiving(act) if code in _RECEIVING else act for code, act in Calls.acts.items()
}
_Members.acts[ord("R")] = _Members.reduce


def without_members(
    findings: List[Finding], source: Source, end: int, budget: Budget
) -> List[Finding]:
    """The findings on the pickles in the first bytes, so many, without the one on `getattr` where
    these are accepted, and get members of enums alone.
    """
    left = [it for it in findings if it.name != GETATTR]
    if len(left) == len(findings) or any(it.severity in (REFUSED, UNREADABLE) for it in left):
        return findings
    return left if _are_members(source, end, budget) else findings


def _are_members(source: Source, end: int, budget: Budget) -> bool:
    """Whether these pickles get nothing else."""
    at = number = 0
    try:
        while at < end:
            at = _followed(_Members(source, at), budget)
            number += 1
        kept = _Members(source, 0)
        while number > 1 and kept.at < end:
            _followed(kept, budget)
    except _Otherwise:
        return False
    return number > 0


def _followed(walk: _Members, budget: Budget) -> int:
    """Follows the next pickle. Returns where it ends."""
    at, before = walk.at, walk.steps
    is_ended, _ = walk.again()
    budget.spend(walk.steps - before + (walk.at - at) // LOOKED_AT)
    if not is_ended:
        raise _Otherwise
    return walk.at

"""The enums of which pickles ask `getattr` for members, as Python 3.11.0 to 3.11.3 write them.

A pickle doesn't say what an enum is: a class counts as one if `getattr` is asked for a public name
of it, what that answers is neither called nor asked for more, and the class is called with nothing
but one value. What is learned permits the members of the class if it is an enum, and else nothing.
"""

from __future__ import annotations

import io
from typing import Any, Dict, List, Set

from .calls import MOST, Calls, is_call_of, is_import, written
from .dangers import known
from .known import HARMLESS
from .source import Source, in_memory

GETATTR = "builtins.getattr"
_STEPS, _LONGEST = 1_000_000, 200
"""The most instructions of a pickle that are followed, and the longest name of a class."""


class Members:
    """What `getattr` is asked for in pickles."""

    def __init__(self) -> None:
        self._asked: Dict[str, str] = {}
        """Classes, each with the first call that asks for a name of it."""
        self._made: Set[str] = set()
        """Classes and functions that are known to be no enums."""
        self._others: Dict[str, None] = {}

    def look(self, source: Source, at: int, end: int) -> None:
        """Looks through the pickles between two places."""
        while at < end:
            walk = Calls(source, at, _STEPS, self._take)
            is_ended, _ = walk.through()
            at = walk.at
            if not is_ended:
                break

    def look_in(self, data: bytes) -> None:
        """Looks through the pickle at the front of these bytes."""
        self.look(in_memory(io.BytesIO(data)), 0, 1)

    def _take(self, name: str, call: Any) -> None:
        function = call.front
        is_asked = is_import(function) and function.name == GETATTR
        for it in (function, *call.items[:is_asked]):
            if is_call_of(it, GETATTR):  # (what is called, or has attributes, is no member)
                self._made.update(word.name for word in it.items[:1] if is_import(word))
        if not is_import(function) or function.name != name:
            return  # (it is given to a call, or has made what is called)
        if name != GETATTR:
            self._made.update({name} if len(call.items) != 1 else ())
        elif _is_public(call.items) and _may_be_enum(call.items[0].name):
            self._asked.setdefault(call.items[0].name, written(call))
        elif len(self._others) < MOST:
            self._others[written(call)] = None

    @property
    def enums(self) -> List[str]:
        """The classes that seem to be enums, by their dotted names."""
        return sorted(name for name in self._asked if name not in self._made)

    @property
    def others(self) -> List[str]:
        """Calls that ask for something else, some of each kind."""
        return [*self._others, *(self._asked[name] for name in self._asked if name in self._made)]


def _is_public(given: List[Any]) -> bool:
    """Whether these are an import and a public name."""
    if len(given) != 2 or not is_import(given[0]) or type(given[1]) is not str:
        return False
    return given[1].isidentifier() and not given[1].startswith("_")


def _may_be_enum(name: str) -> bool:
    row = known().judged(name)
    is_dotted = "." in name and all(word.isidentifier() for word in name.split("."))
    return is_dotted and len(name) <= _LONGEST and (row is None or row.severity == HARMLESS)

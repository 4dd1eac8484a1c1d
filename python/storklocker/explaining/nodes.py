"""What the explanation of a pickle is made of."""

from __future__ import annotations

from typing import Any, List, NamedTuple, Sequence

from ..scanning.known import HARMLESS
from ..scanning.severity import DANGER, UNKNOWN, WARNING
from ..scanning.valued import DICT, FROZENSET, LIST, SET, TUPLE

IMPORT, CALL, NEW, INSTANCE, SETSTATE = "import", "call", "new", "instance", "setstate"
APPEND, EXTEND, SETITEM, ADD, RETURN = "append", "extend", "setitem", "add", "return"
LONG, BYTEARRAY, UNREAD, PICKLE = "long", "bytearray", "unread", "pickle"
LEFT, NOTE = "left", "note"
COMMENTS = frozenset((PICKLE, LEFT, NOTE))
"""What is said beside the statements."""
HELPERS = frozenset(
    "find_class persistent_load next_buffer readonly extension instantiate setstate".split()
)
"""The functions that stand for instructions which Python has no words for."""
COLLECTED = frozenset((LIST, TUPLE, DICT, SET, FROZENSET, LONG, BYTEARRAY))
"""Values that no event makes."""
STATEMENTS = frozenset((IMPORT, SETSTATE, APPEND, EXTEND, SETITEM, ADD, RETURN, LEFT))
"""Events that make no value."""
ORDER = (DANGER, WARNING, UNKNOWN, HARMLESS, "")
"""How bad a name is, from the worst; the last is that of a value."""
BAD = frozenset((DANGER, WARNING))
DEEPEST = 16
"""A value with more brackets around one another is written in parts."""


class Node:
    """A value, or an event. What an event makes is written where it is used, if it is used once and
    nothing else happens in between. Numbers and short texts are no nodes.
    """

    __slots__ = ("kind", "at", "items", "uses", "depth", "severity", "is_marked")

    def __init__(self, kind: str, at: int, items: List[Any]) -> None:
        self.kind, self.at, self.items = kind, at, items
        self.uses = self.depth = 0
        self.severity = ""
        """How bad a name is, and what calls do that have it."""
        self.is_marked = False
        """Whether it is used: what is put into it from then on is a statement of its own."""


class Span(NamedTuple):
    """A long text, or bytes, by its place in the pickle."""

    begin: int
    end: int
    is_text: bool
    coding: str = "utf-8"


def worst_of(values: Sequence[Any]) -> str:
    """The worst severity of these values."""
    found = [it.severity for it in values if type(it) is Node]
    return min(found, key=ORDER.index, default="")

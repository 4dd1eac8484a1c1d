"""What a pickle does, as events in order: followed as its most lenient reader reads it."""

from __future__ import annotations

import struct
from typing import Any, Dict, List, Tuple

from ..scanning.dangers import judged
from ..scanning.following import value_of
from ..scanning.known import HARMLESS
from ..scanning.lenient import ANY, OTHER, Names
from ..scanning.members import GETATTR
from ..scanning.names import named_today, pair_of
from ..scanning.severity import DANGER, UNKNOWN
from ..scanning.source import Source
from ..scanning.spelled import SIZES
from ..scanning.valued import DICT, LIST, SET, TUPLE, Valued, with_values
from .nodes import (
    ADD, APPEND, BYTEARRAY, CALL, COLLECTED, DEEPEST, EXTEND, IMPORT, INSTANCE, LEFT,
    LONG, NEW, NOTE, PICKLE, RETURN, SETITEM, SETSTATE, UNREAD, Node, Span, worst_of
)

STEPS = 200_000
"""The most instructions that are explained, unless all are asked for."""
SHORT = 1000
"""Longer texts and bytes are read when they are written."""
_CONSTANTS = {"None": None, "True": True, "False": False}
_TAKEN = {"APPEND": LIST, "APPENDS": LIST, "SETITEM": DICT, "SETITEMS": DICT, "ADDITEMS": SET}
"""What these instructions put values into without an event."""
_TEXTS = {"STRING": "latin-1", "UNICODE": "raw-unicode-escape", "BINSTRING": "latin-1"}


class Machine(Valued):
    """Follows pickles one after another, and keeps what happens."""

    def __init__(self, source: Source, at: int, most: int, is_open: bool = False) -> None:
        super().__init__(source, at, is_open)
        self.most = most
        self.events: List[Node] = []
        """What happens, and values where they are used first."""
        self.pickles = 0
        self._known_names: Dict[Tuple[bytes, Names], Tuple[Any, Any, str]] = {}
        self.gets_members = False
        """Whether `getattr` is only asked for members of enums."""

    def apart(self) -> bool:
        """Follows the next pickle; with the memo of the last one if it needs that. Returns whether
        it gets to STOP.
        """
        self.pickles += 1
        kept, begun = self._memo, (self.at, len(self.events), self.steps)
        is_ended = self._from(begun, {})
        if not is_ended and kept and self.steps <= self.most:
            is_ended = self._from(begun, kept)
            if not is_ended:
                self._from(begun, {})
        return is_ended

    def _from(self, begun: Tuple[int, int, int], memo: Dict[int, Any]) -> bool:
        """Follows the pickle at a place, with a memo."""
        self.at, count, self.steps = begun
        del self.events[count:]
        self.events.append(Node(PICKLE, self.at, [self.pickles, bool(memo)]))
        self._memo = memo
        return self.again()[0]

    def stop(self) -> None:
        """Takes what the pickle has made so far."""
        left = [it for held in (*self._below, self._stack) for it in held]
        if left:
            self._event(LEFT, left)

    # ---- events

    def _event(self, kind: str, items: List[Any]) -> Node:
        made = Node(kind, self.begun, items)
        made.depth = self._take(items)
        self.events.append(made)
        return made

    def _take(self, values: List[Any]) -> int:
        """Counts the uses of values. Returns how deep they are."""
        deepest = 0
        for it in values:
            if type(it) is not Node:
                continue
            it.uses += 1
            self._mark(it)
            if it.depth >= DEEPEST:
                it.uses += 1  # so that it is written before this
            elif it.depth >= deepest:
                deepest = it.depth + 1
        return deepest

    def _mark(self, it: Any) -> None:
        """What is put into a value from now on is a statement."""
        if type(it) is Node and not it.is_marked:
            it.is_marked = True
            if it.kind in COLLECTED:
                self.events.append(it)

    def _call(self, name: str, function: Any, given: List[Any]) -> Any:
        if name in ("INST", "OBJ"):
            kind = INSTANCE
        else:
            kind = CALL if name == "REDUCE" else NEW
        made = self._event(kind, [function, *given])
        if kind == NEW and type(function) is Node and function.kind != IMPORT:
            function.uses += 1  # (it is written twice)
        args = given
        if given and type(given[0]) is Node and given[0].kind == TUPLE and kind != INSTANCE:
            args = given[0].items
        named = [it for it in args[:8] if type(it) is Node and it.kind == IMPORT]
        made.severity = worst_of([function, *named])
        return made

    def build(self) -> None:
        """BUILD."""
        state = self._pop()
        target = self.top()
        made = self._event(SETSTATE, [target, state])
        made.severity = worst_of([target])

    def take_top(self) -> None:
        self._event(RETURN, [self._pop()])

    def persistent(self) -> None:
        begin = self.at
        super().persistent()
        line = self.source.read(begin, self.at - begin)[:-1].decode("ascii", "replace")
        self._stack[-1] = self._event("persistent_load", [line])

    def identified(self) -> None:
        given = self.top()
        super().identified()
        self._stack[-1] = self._event("persistent_load", [given])

    def next_buffer(self) -> None:
        self.push(self._event("next_buffer", []))

    def read_only(self) -> None:
        self.top()
        self._stack[-1] = self._event("readonly", [self._stack[-1]])

    def registered(self, width: int) -> None:
        begin = self.at
        super().registered(width)
        number = int.from_bytes(self.source.read(begin, width), "little")
        made = self._stack[-1] = self._event("extension", [number])
        made.severity = DANGER  # (as a scan says of what is hidden)

    def from_stack(self) -> None:
        given = self._stack[-2:]
        super().from_stack()
        if self._pair == (None, None):
            made = self._stack[-1] = self._event("find_class", given)
            made.severity = DANGER

    def _imported(self, names: Names) -> Any:
        key = (self._front, names)
        if key not in self._known_names:
            self._known_names[key] = self._judged(names)
        module, name, severity = self._known_names[key]
        made = self._event(IMPORT, [module, name])
        made.severity = severity
        return made

    def _judged(self, names: Names) -> Tuple[Any, Any, str]:
        """A name as Python 3 has it, and how bad it is."""
        (today,) = named_today([names], self._front)
        module, name = pair_of(today)
        row = judged(module or "", name or "")
        if self.gets_members and f"{module}.{name}" == GETATTR:
            return module, name, HARMLESS
        return module, name, UNKNOWN if row is None else row.severity

    # ---- values

    def _known(self, value: Any) -> Any:
        if type(value) is str:
            return value
        if type(value) is not Node:
            return OTHER
        is_text = value.kind != LONG or value.items[0].is_text
        return ANY if is_text and (value.kind == LONG or value.kind not in COLLECTED) else OTHER

    def duplicate(self) -> None:
        self._mark(self.top())
        super().duplicate()

    def get(self, width: int) -> None:
        super().get(width)
        self._mark(self._stack[-1])

    def _constant(self, text: str) -> Any:
        return _CONSTANTS[text]

    def _collected(self, brackets: str, items: List[Any]) -> Any:
        made = Node(brackets, self.begun, items)
        made.depth = self._take(items) if items else 0
        return made

    def _filled(self, name: str, items: List[Any]) -> None:
        target = self._stack[-1]
        kind = _TAKEN[name]
        if type(target) is Node and target.kind == kind and not target.is_marked:
            target.items += items
            target.depth = max(target.depth, self._take(items))
        elif kind == SET:
            for it in items:
                self._change(ADD, [target, it])
        elif kind == DICT:
            for key, value in zip(items[::2], items[1::2]):
                self._change(SETITEM, [target, key, value])
        else:
            self._change(APPEND if name == "APPEND" else EXTEND, [target, *items])

    def _change(self, kind: str, items: List[Any]) -> None:
        made = self._event(kind, items)
        made.severity = worst_of(items[:1])

    def _literal(self, it: Any, begin: int) -> Any:
        top = self._stack[-1]
        if type(top) is str:
            return top
        begin += SIZES.get(it.arg.n, 0)
        end = self.at - (it.arg.n == -1)
        if end - begin > SHORT:
            return self._long(it.name, begin, end)
        value = _value_of(it.name, self._raw(begin, end))
        if type(value) is bytearray:
            return Node(BYTEARRAY, self.begun, [bytes(value)])
        return value

    def _raw(self, begin: int, end: int) -> bytes:
        start = begin - self._base
        if 0 <= start <= len(self._data) - (end - begin):
            return self._data[start : start + end - begin]
        return self.source.read(begin, end - begin)

    def _long(self, name: str, begin: int, end: int) -> Any:
        if name in ("LONG", "LONG1", "LONG4", "INT", "FLOAT"):
            held = [Span(begin, end, False)] if name in ("LONG1", "LONG4") else []
            return Node(UNREAD, self.begun, [f"{name} of {end - begin:,} bytes", *held])
        is_text = "UNICODE" in name or "STRING" in name
        made = Node(LONG, self.begun, [Span(begin, end, is_text, _TEXTS.get(name, "utf-8"))])
        return Node(BYTEARRAY, self.begun, [made]) if name == "BYTEARRAY8" else made


def _value_of(name: str, raw: bytes) -> Any:
    """The value of an instruction's argument."""
    if name == "BYTEARRAY8":
        return bytearray(raw)
    if name.endswith(("BINBYTES", "BINBYTES8")):
        return raw
    try:
        if name == "BINFLOAT":
            return struct.unpack(">d", raw)[0]
        if name == "FLOAT":
            return float(raw)
        if name == "INT" and raw not in (b"00", b"01"):
            return int(raw, 0)
        value = value_of(name, raw)
    except (ValueError, KeyError):
        value = ANY
    return Node(UNREAD, 0, [f"{name} {raw[:40]!r}"]) if value is ANY else value


Machine.acts = with_values(Machine)
Machine.acts[ord("b")] = Machine.build

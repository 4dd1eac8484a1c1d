"""Writes what a pickle does as statements of Python."""

from __future__ import annotations

import math
from typing import Any, Callable, Dict, Iterator, List, NamedTuple, Tuple

from ..scanning.lenient import ANY
from ..scanning.source import Source
from ..scanning.valued import DICT, FROZENSET, LIST, SET, TUPLE
from .naming import Naming, is_plain
from .nodes import (
    ADD, APPEND, BAD, BYTEARRAY, CALL, COLLECTED, EXTEND, IMPORT, INSTANCE, LEFT, LONG, NEW,
    NOTE, PICKLE, RETURN, SETITEM, SETSTATE, STATEMENTS, UNREAD, Node, Span
)

ITEMS, LETTERS, ROOM = 12, 160, 1500
"""Of a collection so many items are written, of a text so many characters, and of a statement so
many; the rest is folded.
"""
_BLOCK = 1 << 16
Pieces = Iterator[str]


class Statement(NamedTuple):
    """Something that happens when the pickle is loaded."""

    at: int
    """The offset of its instruction."""
    event: Node
    """What happens, or the value that gets a variable."""
    pieces: Pieces
    """What it is written as, which is read once."""


class Writer:
    """Writes events. All of them must be known: how often a value is used says where it is written.
    """

    def __init__(self, source: Source, is_full: bool, is_stream: bool) -> None:
        self._source, self._is_full = source, is_full
        self._return = "yield" if is_stream else "return"
        self._naming = Naming()
        self._pending: List[Node] = []
        """Values that calls make, and that are written where they are used."""
        self._names: Dict[Node, str] = {}
        """The variables, and the names of imports."""

    def statements(self, events: List[Node]) -> Iterator[Statement]:
        """The statements of all events."""
        for it in events:
            if it.kind in COLLECTED:
                if it.uses > 1:
                    yield from self._stated(it, True)
            elif it.kind in (PICKLE, NOTE):
                yield from self._flushed(0)
                yield from self._begun(it)
            elif it.kind == IMPORT and is_plain(*it.items):
                yield from self._flushed(0)
                text, self._names[it] = self._naming.bound(*it.items)
                yield Statement(it.at, it, iter([text]))
            else:
                is_value = it.kind not in STATEMENTS or it.kind == IMPORT
                yield from self._stated(it, is_value and it.uses > 0)
        yield from self._flushed(0)

    def _begun(self, it: Node) -> Iterator[Statement]:
        """Another pickle begins, or something is said."""
        if it.kind == NOTE:
            yield Statement(it.at, it, iter([f"# {it.items[0]}"]))
            return
        number, is_kept = it.items
        if not is_kept:
            self._naming.forget()
        if self._return == "yield":
            memo = ", which uses the memo of the one before" if is_kept else ""
            yield Statement(it.at, it, iter([f"# pickle {number:,}{memo}:"]))

    def _stated(self, it: Node, is_value: bool) -> Iterator[Statement]:
        """An event, with what is written in it; or that is kept until it is used."""
        used = self._used_in(it)
        count = 0
        for mine, last in zip(reversed(used), reversed(self._pending)):
            if mine is not last:
                break
            count += 1
        is_kept = is_value and it.uses == 1 and it.kind not in COLLECTED
        is_kept &= it.severity not in BAD
        if count < len(used) or not is_kept:
            yield from self._flushed(count)
        del self._pending[len(self._pending) - count :]
        if is_kept:
            self._pending.append(it)
        else:
            yield self._written(it, is_value)

    def _flushed(self, count: int) -> Iterator[Statement]:
        """Writes what is kept, but for the last values."""
        most = len(self._pending) - count
        for it in self._pending[:most]:
            yield self._written(it, True)
        del self._pending[:most]

    def _written(self, it: Node, is_value: bool) -> Statement:
        pieces = self._pieces(self._parts(it))
        if is_value:
            name = self._naming.variable()
            pieces = self._named(f"{name} = ", self._parts(it))
            self._names[it] = name
        return Statement(it.at, it, pieces)

    def _named(self, front: str, parts: List[Any]) -> Pieces:
        yield front
        yield from self._pieces(parts)

    # ---- the order of events

    def _used_in(self, it: Node) -> List[Node]:
        """The values that are written in an event and made by others, as Python gets to them."""
        if not self._pending:
            return []
        found: List[Node] = []
        todo = list(reversed(_ordered(it)))
        while todo:
            value = todo.pop()
            if type(value) is not Node or value in self._names:
                continue
            if value.kind in COLLECTED:
                todo.extend(reversed(value.items))
            elif value.kind != UNREAD:
                found.append(value)
        return found

    # ---- what things are written as

    def _pieces(self, parts: List[Any]) -> Pieces:
        """Parts as texts; what has no room is folded."""
        room, todo = ROOM, parts[::-1]
        while todo:
            it = todo.pop()
            if type(it) is _Text:
                yield it
                room -= len(it)
            elif room < 0 and not self._is_full:
                yield "..."
            elif type(it) is Span:
                for piece in self._long(it):
                    yield piece
                    room -= len(piece)
            elif it is ANY:
                yield "..."
            elif type(it) is Node:
                name = self._names.get(it)
                todo.extend(reversed(self._parts(it) if name is None else [_Text(name)]))
            else:
                text = self._constant(it)
                yield text
                room -= len(text)

    def _parts(self, it: Node) -> List[Any]:
        """An event or a value, in parts."""
        if it.kind in _FORMS:
            return _FORMS[it.kind](self, it.items)
        if it.kind in COLLECTED:
            return self._collected(it)
        return [_Text(f"{it.kind}("), *_listed(it.items), _CLOSE]

    def _collected(self, it: Node) -> List[Any]:
        items = it.items
        if it.kind == LONG:
            return [items[0]]
        if it.kind == BYTEARRAY:
            return [_Text("bytearray("), *items, _CLOSE] if items[0] else [_Text("bytearray()")]
        if it.kind == SET and not items:
            return [_Text("set()")]
        front, end = _BRACKETS[it.kind]
        per, count = (2 if it.kind == DICT else 1), len(items)
        folded = 0
        if count > per * ITEMS and not self._is_full:
            folded = count // per - ITEMS + 2
            items = items[: per * (ITEMS - 2)]
        parts = _paired(items) if it.kind == DICT else _listed(items)
        if folded:
            parts += [_COMMA, _Text(f"... {folded:,} more")]
        elif it.kind == TUPLE and count == 1:
            parts.append(_Text(","))
        return [_Text(front), *parts, _Text(end)]

    def _constant(self, it: Any) -> str:
        kind = type(it)
        if kind is float and not math.isfinite(it):
            return f"float('{it}')"
        if (kind is str or kind is bytes) and len(it) > LETTERS and not self._is_full:
            return f"{it[:LETTERS]!r}... {len(it) - LETTERS:,} more"
        return repr(it)

    def _long(self, it: Span) -> Pieces:
        """A long text, or bytes."""
        if not self._is_full:
            front = self._source.read(it.begin, LETTERS)
            shown: Any = front.decode(it.coding, "ignore") if it.is_text else front
            yield f"{shown!r}... {it.end - it.begin - len(front):,} more"
            return
        if it.is_text:
            raw = self._source.read(it.begin, it.end - it.begin)
            errors = "surrogatepass" if it.coding == "utf-8" else "strict"
            yield repr(raw.decode(it.coding, errors))
            return
        at = it.begin
        while at < it.end:
            yield repr(self._source.read(at, min(_BLOCK, it.end - at)))
            at += _BLOCK
            if at < it.end:
                yield " "

    # ---- forms

    def _call(self, items: List[Any]) -> List[Any]:
        function, given = items
        return [*_callable(function), _Text("("), *self._spread(given), _CLOSE]

    def _spread(self, given: Any) -> List[Any]:
        """The arguments of a call."""
        if type(given) is Node and given.kind == TUPLE and given not in self._names:
            if len(given.items) > ITEMS and not self._is_full:
                return self._collected(given)[1:-1]
            return _listed(given.items)
        return [_Text("*"), given]

    def _new(self, items: List[Any]) -> List[Any]:
        kind, given, *named = items
        parts = [*_callable(kind), _Text(".__new__("), kind]
        spread = self._spread(given)
        parts += [_COMMA, *spread] if spread else []
        if named:
            parts += [_COMMA, _Text("**"), named[0]]
        return [*parts, _CLOSE]

    def _instance(self, items: List[Any]) -> List[Any]:
        function, *given = items
        if not given:
            return [_Text("instantiate("), function, _CLOSE]
        return [*_callable(function), _Text("("), *_listed(given), _CLOSE]

    def _import(self, items: List[Any]) -> List[Any]:
        return [_Text("find_class("), *_listed(items), _CLOSE]

    def _method(self, name: str, items: List[Any]) -> List[Any]:
        return [*_callable(items[0]), _Text(f".{name}("), *_listed(items[1:]), _CLOSE]

    def _extend(self, items: List[Any]) -> List[Any]:
        listed = Node(LIST, 0, items[1:])
        return [*_callable(items[0]), _Text(".extend("), *self._collected(listed), _CLOSE]

    def _set_item(self, items: List[Any]) -> List[Any]:
        target, key, value = items
        return [*_callable(target), _Text("["), key, _Text("] = "), value]

    def _left(self, items: List[Any]) -> List[Any]:
        listed = self._collected(Node(LIST, 0, items))
        return [_Text("# made so far: "), *listed[1:-1]]

    def _returned(self, items: List[Any]) -> List[Any]:
        return [_Text(f"{self._return} "), *items]

    def _unread(self, items: List[Any]) -> List[Any]:
        return [_Text(f"<{items[0]}>")]


class _Text(str):
    """A piece of a statement."""


_COMMA, _CLOSE = _Text(", "), _Text(")")
_BRACKETS = {
    LIST: ("[", "]"), TUPLE: ("(", ")"), DICT: ("{", "}"), SET: ("{", "}"),
    FROZENSET: ("frozenset([", "])"),
}
_FORMS: Dict[str, Callable[[Writer, List[Any]], List[Any]]] = {
    CALL: Writer._call, NEW: Writer._new, INSTANCE: Writer._instance, IMPORT: Writer._import,
    APPEND: lambda it, items: it._method("append", items),
    ADD: lambda it, items: it._method("add", items),
    EXTEND: Writer._extend, SETITEM: Writer._set_item, RETURN: Writer._returned,
    UNREAD: Writer._unread, LEFT: Writer._left,
    SETSTATE: lambda it, items: [_Text("setstate("), *_listed(items), _CLOSE],
}


def _ordered(it: Node) -> List[Any]:
    """The parts of an event, as Python gets to them."""
    if it.kind == SETITEM:
        target, key, value = it.items
        return [value, target, key]
    if it.kind == IMPORT:
        return []
    return it.items


def _listed(items: List[Any]) -> List[Any]:
    """Items with commas in between."""
    found: List[Any] = []
    for it in items:
        found += (it, _COMMA)
    return found[:-1]


def _paired(items: List[Any]) -> List[Any]:
    """Keys and values with colons in between."""
    found: List[Any] = []
    for key, value in zip(items[::2], items[1::2]):
        found += (key, _Text(": "), value, _COMMA)
    return found[:-1]


def _callable(it: Any) -> Tuple[Any, ...]:
    """What is called, or has a method. Only a number or a text needs brackets."""
    return (it,) if type(it) is Node else (_Text("("), it, _CLOSE)

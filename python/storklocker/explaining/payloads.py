"""Opens what the statements of an explanation hide: texts that known functions decode, inner
pickles, code. Nothing is run; what isn't plain stays shut.
"""

from __future__ import annotations

import itertools
from typing import Any, Callable, Dict, Iterable, Iterator, List, Optional, Set, Tuple

from ..scanning.dangers import judged
from ..scanning.known import HARMLESS, Row
from ..scanning.lenient import ANY
from ..scanning.report import shown
from ..scanning.valued import DICT, FROZENSET, LIST, SET, TUPLE
from .answers import CALLER, answered, code_of, may_change
from .decoding import DECODERS, LARGEST, weight_of
from .marshalled import Code
from .nodes import (
    ADD, APPEND, BYTEARRAY, CALL, COLLECTED, EXTEND, IMPORT, INSTANCE, LONG, NEW, SETITEM, SETSTATE,
    UNREAD, Node, Span
)
from .pickles import Followed
from .values import (
    HIDDEN, Compiled, Large, Made, Named, Partial, Spent, Unknown, data_of, name_of, text_of
)

DEPTH = 8
"""How deep payloads are opened."""
_LINES, _WIDTH, _SHOWN, _HASHED, _WORDS = 40, 400, 160, 1000, 8
_PARTS, _HELD, _FAILED = 2000, 100, 1 << 18
_FORMS = frozenset((CALL, NEW, INSTANCE))
CALLS = _FORMS | {"persistent_load", "extension"}
_CHANGES = (APPEND, EXTEND, SETITEM, ADD, SETSTATE)
_MUTABLE = frozenset((LIST, DICT, SET, BYTEARRAY))
_LOADS = "It loads another pickle, which is not checked."
_RUNS = "It runs code that the pickle contains."
"""What the catalogue says of names that load and run what they are given."""


class Bill:
    """What may still be spent on the payloads of a file."""

    def __init__(self) -> None:
        self._visits, self._bytes, self._pickles = 200_000, 1 << 24, 64

    def visit(self) -> None:
        """Counts a value that is looked at."""
        self._visits -= 1
        if self._visits < 0:
            raise Spent

    def pay(self, values: Iterable[Any], weight: int = 1) -> None:
        """Counts what is decoded, and what comes of it."""
        self.spend(weight * sum(len(it) for it in values if type(it) in _SIZED))

    def spend(self, count: int) -> None:
        """Counts bytes."""
        self._bytes -= count
        if self._bytes < 0:
            raise Spent

    def open(self) -> bool:
        """Whether another pickle may be opened."""
        self._pickles -= 1
        return self._pickles >= 0


Inner = Callable[[bytes, int, Bill], Iterator[str]]
_SIZED = (str, bytes, list, tuple, dict)


class Opener:
    """Opens what the events of a pickle hide. `inner` explains a pickle in a payload."""

    def __init__(
        self, followed: Followed, inner: Inner, depth: int = 0, bill: Optional[Bill] = None
    ) -> None:
        self._inner, self._depth = inner, depth
        self._bill = bill or Bill()
        self._lines: Dict[Node, List[str]] = {}
        self._values = Values(followed, self._bill)

    def lines(self, it: Node, is_bad: bool) -> List[str]:
        """What a statement hides; of one that isn't dangerous, what it decodes."""
        if it.kind not in CALLS and it.kind != SETSTATE:
            return []
        if it not in self._lines:
            self._lines[it] = self._lines_of(it, is_bad)
        return self._lines[it]

    def _lines_of(self, it: Node, is_bad: bool) -> List[str]:
        try:
            if not is_bad and not self._values.is_decoded(it):
                return []
            found = list(itertools.islice(self._opened(it), _LINES + 1))
        except Spent:
            return ["it isn't opened: there is too much to open"]
        except Exception:  # (Unknown, or whatever hostile values raise)
            return []
        return found if len(found) <= _LINES else [*found[:_LINES], "... and more"]

    def _opened(self, it: Node) -> Iterator[str]:
        is_plain = self._values.is_plain(it)
        if it.kind == SETSTATE:
            if not is_plain:
                yield shown(f"the state is {text_of(self._values.at(it, it.items[1]))}", _WIDTH)
            return
        function, words = self._values.called(it)
        name, given = name_of(function), list(map(data_of, words[:_WORDS]))
        why = _why(name)
        pickled = next((word for word in given if type(word) is bytes), None)
        code = next((word for word in given if type(word) in (str, bytes, Compiled)), None)
        if why == _LOADS and pickled:
            yield f"{name} loads a pickle of {len(pickled):,} bytes:"
            yield from (f"    {line}" for line in self._inside(pickled))
        elif name == "marshal.loads" and pickled is not None:
            yield "marshalled code:"
            yield from _code_lines(code_of(pickled))
        elif type(function) is Compiled:
            yield "it runs:"
            yield from _code_lines(function.code)
        elif why == _RUNS and code is not None:
            if type(code) is Compiled or not (is_plain and _is_short(code)):
                yield f"{name.rpartition('.')[2]} runs:"
                yield from _code_lines(code)
        elif not is_plain or it.kind in _FORMS and name and name != _dotted(it.items[0]):
            row = f": {why}" if why else ""
            yield shown(f"calls {text_of(Made(function, tuple(words)))}{row}", _WIDTH)

    def _inside(self, data: bytes) -> Iterator[str]:
        if self._depth >= DEPTH or not self._bill.open():
            yield "it isn't opened: there are too many payloads"
        else:
            yield from self._inner(data, self._depth + 1, self._bill)


class Values:
    """What the values of a pickle are, as far as it is known without running anything."""

    def __init__(self, followed: Followed, bill: Bill) -> None:
        self._source, self._bill = followed.source, bill
        self._answers: Dict[Node, Any] = {}
        self._changes: Dict[Node, List[Node]] = {}
        self._calls: List[Node] = []
        self._holding: Optional[Dict[Node, List[Node]]] = None
        """The calls that are given a value which has more uses."""
        for it in followed.events:
            if it.kind in _CHANGES and type(it.items[0]) is Node:
                self._changes.setdefault(it.items[0], []).append(it)
            elif it.kind in CALLS:
                self._calls.append(it)
        self._at = 0

    def called(self, it: Node) -> Tuple[Any, List[Any]]:
        """What is called, and with what."""
        self._ready(it)
        found: Tuple[Any, List[Any]] = self._when(it.at, self._called, it)
        return found

    def at(self, it: Node, value: Any) -> Any:
        """A value as it is when an event happens."""
        self._ready(it)
        return self._when(it.at, self._maybe, value)

    def is_plain(self, it: Node) -> bool:
        """Whether what an event is given is written in it, and no call makes it."""
        given = it.items[1:] if it.kind in _FORMS or it.kind == SETSTATE else it.items
        return all(value.kind in COLLECTED for value in self._within(given, False))

    def is_decoded(self, it: Node) -> bool:
        """Whether an event is given what a decoder answers."""
        if self.is_plain(it):
            return False
        self._ready(it)
        given = [self._answers.get(value) for value in self._within(it.items, False)]
        return any(type(value) in (str, bytes, Compiled) for value in given)

    def _within(self, values: List[Any], is_all: bool) -> Iterator[Node]:
        """The values in others, each once; in what calls make only if all are wanted."""
        found: Set[Node] = set()
        todo = list(values[:_PARTS])
        while todo:
            value = todo.pop()
            if type(value) is not Node or value in found or value.kind == IMPORT:
                continue
            self._bill.visit()
            found.add(value)
            yield value
            if is_all or value.kind in COLLECTED:
                todo += value.items[:_PARTS]
                for change in self._changes.get(value, ())[:_PARTS]:
                    todo += change.items[1:_PARTS]

    def _ready(self, it: Node) -> None:
        """Answers the calls first that a value is made of, for they may lie very deep."""
        calls = [value for value in self._within(it.items, True) if value.kind in CALLS]
        for value in sorted(calls, key=lambda it: it.at):
            self._maybe(value)

    def _when(self, at: int, find: Callable[[Any], Any], value: Any) -> Any:
        """What is found of a value as it is at a place."""
        kept, self._at = self._at, at
        try:
            return find(value)
        finally:
            self._at = kept

    def _called(self, it: Node) -> Tuple[Any, List[Any]]:
        if it.kind not in (CALL, NEW, INSTANCE):
            return Named(it.kind), list(map(self._maybe, it.items))
        function = self._maybe(it.items[0])
        if it.kind == INSTANCE:
            words = list(map(self._maybe, it.items[1:]))
        else:
            words = self._words(it.items[1])
        while type(function) is Partial or type(function) is Named and function.name == CALLER:
            if type(function) is Partial:
                function, words = function.function, [*function.words, *words]
            else:
                function, *words = words or [None]
        return function, words

    def _words(self, given: Any) -> List[Any]:
        if type(given) is Node and given.kind in (TUPLE, LIST) and given not in self._changes:
            return list(map(self._maybe, given.items))
        found = self._maybe(given)
        return list(found) if type(found) in (list, tuple) else [HIDDEN]

    def _maybe(self, value: Any) -> Any:
        """A value, or what stands for one that isn't plain."""
        try:
            return self._value(value)
        except Unknown:
            return HIDDEN

    def _value(self, value: Any) -> Any:
        """A plain value. Raises Unknown."""
        self._bill.visit()
        if value is ANY:
            raise Unknown
        if type(value) is not Node:
            return value
        if value.kind == IMPORT:
            return Named(_named(*value.items))
        if value.kind in COLLECTED:
            return self._collected(value)
        if value.kind == UNREAD:
            return self._number(value)
        if value not in self._answers:
            self._answers[value] = HIDDEN
            self._answers[value] = self._when(value.at, self._answer, value)
        found = self._answers[value]
        return self._changed(value, found) if type(found) is Partial else found

    def _changed(self, it: Node, found: Partial) -> Partial:
        """A partial function with the state that it has by now."""
        for change in self._changes.get(it, ()):
            if change.kind == SETSTATE and change.at < self._at:
                state = self._value(change.items[1])
                found = Partial(state[0], tuple(state[1]))
        return found

    def _answer(self, it: Node) -> Any:
        if it.kind == "find_class":
            words = list(map(self._maybe, it.items))
            is_known = set(map(type, words)) == {str}
            return Named(_named(*words)) if is_known else Made(Named(it.kind), tuple(words))
        if it.kind not in CALLS:
            return HIDDEN
        function, words = self._called(it)
        try:
            return self._applied(function, words)
        except Spent:
            raise
        except Large:
            name = f"more than {LARGEST:,} bytes of {name_of(function)}"
            return Made(Named(name), tuple(words))
        except Exception:  # (Unknown, or whatever a decoder raises for hostile bytes)
            return Made(function, tuple(words))

    def _applied(self, function: Any, words: List[Any]) -> Any:
        self._bill.visit()
        while type(function) is Partial:
            function, words = function.function, [*function.words, *words]
        name = name_of(function)
        self._bill.pay(words, weight_of(name))
        try:
            found = answered(function, words, self._applied)
        except Exception:
            if name in DECODERS:  # (it may have unpacked much before)
                self._bill.spend(_FAILED)
            raise
        self._bill.pay([found])
        return found

    def _collected(self, it: Node) -> Any:
        if it.kind == LONG:
            return self._long(it.items[0])
        if it.kind in _MUTABLE and it.uses > 1:
            self._refuse_changed(it)
        if it.kind == BYTEARRAY:
            return bytes(self._value(it.items[0]))
        values = list(map(self._maybe, it.items))
        if it.kind not in (LIST, TUPLE) and len(values) > _HASHED:
            raise Unknown  # (hostile keys collide)
        made: Any = dict(zip(values[::2], values[1::2])) if it.kind == DICT else values
        for change in self._changes.get(it, ()):
            if change.at < self._at:
                self._change(made, change, it.kind)
        if it.kind in (DICT, LIST):
            return made
        kinds: Dict[str, Any] = {TUPLE: tuple, SET: frozenset, FROZENSET: frozenset}
        return kinds[it.kind](made)

    def _change(self, made: Any, change: Node, kind: str) -> None:
        """Puts into a value what a later event puts there."""
        words = list(map(self._maybe, change.items[1:]))
        if change.kind == SETITEM:
            key, value = words
            made[key] = value
        elif kind == DICT or change.kind == SETSTATE or len(made) > LARGEST:
            raise Unknown
        else:
            made += words

    def _refuse_changed(self, it: Node) -> None:
        """Raises Unknown if a call may have changed a value that it was given."""
        if self._holding is None:
            self._holding = {}
            for call in self._calls:
                for value in itertools.islice(self._within(call.items, False), _HELD):
                    if value.kind in _MUTABLE and value.uses > 1:
                        self._holding.setdefault(value, []).append(call)
        for call in self._holding.get(it, ()):
            if call.at < self._at and may_change(self._answers.get(call, HIDDEN)):
                raise Unknown

    def _long(self, it: Span) -> Any:
        if it.end - it.begin > LARGEST:
            raise Unknown
        raw = self._source.read(it.begin, it.end - it.begin)
        return raw.decode(it.coding, "replace") if it.is_text else raw

    def _number(self, it: Node) -> int:
        """A number of more digits than are shown."""
        if len(it.items) < 2:
            raise Unknown
        raw = self._long(it.items[1])
        return int.from_bytes(raw, "little", signed=True)


def _named(module: str, name: str) -> str:
    """A dotted name, without the underscores in front of modules of C."""
    if module in ("posix", "nt"):
        module = "os"
    head = module.lstrip("_") if module != "__builtin__" else "builtins"
    return f"{head}.{name}"


def _dotted(value: Any) -> str:
    return _named(*value.items) if type(value) is Node and value.kind == IMPORT else ""


def _why(name: str) -> str:
    """What the catalogue says of a dotted name, or of the class that has this method. The last two
    words count, for modules have one another.
    """
    words = name.partition("()")[0].split(".")
    for module, last in ((".".join(words[:-1]), words[-1]), (".".join(words[-2:-1]), words[-1])):
        row: Optional[Row] = judged(module, last)
        if row is not None:
            return "" if row.severity == HARMLESS else row.why
    return ""


def _is_short(text: Any) -> bool:
    """Whether a statement shows a text that it is given."""
    return len(text) <= _SHOWN and len(text.splitlines()) < 2


def _code_lines(code: Any) -> Iterator[str]:
    """Code as a text, or by its names and constants."""
    while type(code) is Compiled:
        code = code.code
    if type(code) is Code:
        yield from (shown(line, 2 * _WIDTH) for line in code.lines("    "))
        return
    text = code.decode("utf-8", "replace") if type(code) is bytes else str(code)
    yield from (f"    {shown(line, _WIDTH)}" for line in text.splitlines())

"""The calls of dangerous names in a pickle, with their arguments, as far as these are plain.

The pickle is followed as the most lenient reader follows it. What it pushes is kept as it would be
written in Python, and a call is written where it is made: a list may be filled after a tuple has
it. A call that is made of millions of values is cut like any other.
"""

from __future__ import annotations

import io
from typing import Any, Callable, Dict, Iterable, List, Sequence, Tuple

from .._writing import quoted
from .budget import LOOKED_AT, Budget
from .dangers import known
from .lenient import ANY, OTHER, Names, Walk
from .names import named_today, pair_of
from .report import LONGEST, Finding, shown
from .severity import DANGER
from .source import Source
from .spelled import Stop
from .valued import DICT, FROZENSET, LIST, SET, TUPLE, Valued, with_values

LENGTH = 200
"""The most characters of a call."""
MOST = 4
"""The most calls of a name that are told. A last line counts the others."""
_GIVEN = 8
"""The most arguments of a call that are looked at for names."""
_ITEMS, _VISITS, _LITERAL = 67, 1000, 256


class _Written(str):
    """A piece of a call, as it is shown."""


_UNKNOWN, _NOTHING, _COMMA, _COLON = map(_Written, ("...", "", ", ", ": "))


class _Value:
    """A value: its front, and items between brackets. `name` is that of the import that it is, or
    that has made it.
    """

    __slots__ = ("front", "brackets", "items", "may_be_text", "name")

    def __init__(
        self, front: Any, brackets: str = "", items: Sequence[Any] = (), may_be_text: bool = False
    ) -> None:
        self.front, self.brackets, self.may_be_text = front, brackets, may_be_text
        self.items: List[Any] = []
        self.name = ""
        self.add(items)

    def add(self, items: Sequence[Any]) -> None:
        """Takes more items, of which only the first are seen."""
        if len(self.items) <= _ITEMS:
            if self.brackets == DICT:
                items = [_pair(*it) for it in zip(items[: 2 * _ITEMS : 2], items[1::2])]
            self.items += items[: _ITEMS + 1]

    def pieces(self) -> List[Any]:
        """What it is written as."""
        found = [self.front, _Written(self.brackets[:1])]
        for item in self.items:
            found += (item, _COMMA)
        if self.items:
            found.pop()
        if self.brackets == TUPLE and len(self.items) == 1:
            found.append(_Written(","))
        return [*found, _Written(self.brackets[-1:])]


def _pair(key: Any, value: Any) -> _Value:
    return _Value(_Value(key, "", [_COLON]), "", [value])


def _known(value: Any) -> Any:
    """A value as the walk knows it that only looks for imports."""
    if type(value) is _Value:
        return ANY if value.may_be_text else OTHER
    return OTHER if type(value) is _Written else value


def _text_of(value: Any) -> str:
    if type(value) is str:
        return quoted(value[: LENGTH + 1])
    return value if type(value) is _Written else _UNKNOWN


def written(value: Any) -> str:
    """A value in a line of at most `LENGTH` characters, all of which can be printed."""
    room, todo, found = LENGTH, [value], []
    for _ in range(_VISITS):
        if not todo or room < 0:
            break
        it = todo.pop()
        if type(it) is _Value:
            todo += reversed(it.pieces())
        else:
            found.append(_text_of(it))
            room -= len(found[-1])
    text = "".join(found)
    return text if not todo and len(text) <= LENGTH else f"{text[: LENGTH - 3]}..."


def is_import(value: Any) -> bool:
    """Whether a value is an import, and nothing that one has made."""
    return type(value) is _Value and bool(value.name) and not value.brackets


def is_call_of(value: Any, name: str) -> bool:
    """Whether a value is what the import of this name answers."""
    is_made = type(value) is _Value and value.brackets == "()"
    return is_made and is_import(value.front) and value.front.name == name


class Calls(Valued):
    """Follows a pickle, and calls `tell` with each import that is called or given to a call, and
    that call.
    """

    def __init__(
        self, source: Source, at: int, most: int, tell: Callable[[str, _Value], object]
    ) -> None:
        super().__init__(source, at)
        self.most, self._tell = most, tell

    def _known(self, value: Any) -> Any:
        return _known(value)

    def _imported(self, names: Names) -> Any:
        (today,) = named_today([names], self._front)
        made = _Value(_name_of(today), may_be_text=True)
        made.name = made.front
        return made

    def _call(self, name: str, function: Any, given: List[Any]) -> Any:
        if name in ("INST", "OBJ"):
            return self._called(function, given)
        words: List[Any] = []
        for star, it in zip(("*", "**"), given):
            is_tuple = type(it) is _Value and it.brackets == TUPLE and not words
            words += it.items if is_tuple else [_Value(_Written(star), "", [it])]
        return self._called(function, words)

    def _called(self, function: Any, words: List[Any]) -> Any:
        """What a function makes of these arguments."""
        made = _Value(function, "()", words, True)
        if type(function) is _Value:
            made.name = function.name
        for it in (function, *words[:_GIVEN]):
            if type(it) is _Value and it.name and (it is function or not it.brackets):
                self._tell(it.name, made)
        return made

    def _literal(self, it: Any, begin: int) -> Any:
        top = self._stack[-1]
        if type(top) is str:
            return top
        raw = self.source.read(begin, min(self.at - begin, _LITERAL))
        return _Value(_Written(_literal(it.arg, raw)), may_be_text=top is ANY)

    def _constant(self, text: str) -> Any:
        return _Value(_Written(text))

    def _collected(self, brackets: str, items: List[Any]) -> Any:
        return _Value(_NOTHING, SET if brackets == FROZENSET else brackets, items)

    def _filled(self, name: str, items: List[Any]) -> None:
        it = self._stack[-1]
        if type(it) is _Value and it.brackets in (LIST, DICT, SET):
            it.add(items)


def _literal(argument: Any, raw: bytes) -> str:
    """The value of an instruction's argument, of which these are the first bytes."""
    try:
        value = argument.reader(io.BytesIO(raw))
    except Exception:  # whatever `pickletools` refuses, and what is cut
        width = {-2: 1, -3: 4, -4: 4, -5: 8}.get(argument.n, 0)
        value = raw[width:].decode("utf-8", "replace")
    return quoted(value) if isinstance(value, str) else shown(repr(value), LENGTH)


def _name_of(names: Names) -> _Written:
    return _Written(shown(".".join(str(it) for it in pair_of(names)), LONGEST))


Calls.acts = with_values(Calls)


class Naming(Calls):
    """Follows pickles for the names that they import. What a call makes is a part of one only if
    what is called may answer a text.
    """

    def __init__(self, source: Source, at: int) -> None:
        super().__init__(source, at, Walk.most, lambda name, call: None)

    def _known(self, value: Any) -> Any:
        return super()._known(value) if _is_text(value) else OTHER

    def _called(self, function: Any, words: List[Any]) -> Any:
        is_value = type(function) is _Value and not (function.name or function.may_be_text)
        if is_value or type(function) is str:
            raise Stop  # (it can't be called)
        return super()._called(function, words)


_SCALAR = "numpy.core.multiarray.scalar"


def _is_text(value: Any) -> bool:
    """Whether a value may be a text."""
    if type(value) is not _Value:
        return type(value) is str or value is ANY
    if type(value.front) is not _Value:
        return False  # (what is imported is a class or a function)
    if value.name == _SCALAR:  # (of an object it answers that)
        given = value.items[0].items if _is_spread(value.items) else value.items[1:2]
        return any(map(_is_text, given))
    return value.name in known().texts


def _is_spread(items: List[Any]) -> bool:
    """Whether the arguments of a call aren't known to be a tuple."""
    return len(items) == 1 and type(items[0]) is _Value and items[0].front == "*"


def with_calls(
    findings: Iterable[Finding], source: Source, end: int, budget: Budget
) -> List[Finding]:
    """The findings on the pickles in front of a place, and on one that begins there, those on
    dangerous names with the calls that the pickles make of them.
    """
    found = list(findings)
    calls = {it.name: _Told() for it in found if it.severity == DANGER and it.name}
    at = 0

    def tell(name: str, call: _Value) -> None:
        if name in calls:
            calls[name].add(call)

    while calls and at <= end and budget.calls > 0:
        walk = Calls(source, at, budget.calls, tell)
        is_ended, _ = walk.through()
        budget.calls -= walk.steps + (walk.at - at) // LOOKED_AT
        at = walk.at
        if not is_ended:
            break
    return [it._replace(calls=calls[it.name].lines()) if it.name in calls else it for it in found]


class _Told:
    """The calls of a name, each once."""

    def __init__(self) -> None:
        self._lines: Dict[str, None] = {}
        self._more = 0

    def add(self, call: _Value) -> None:
        if len(self._lines) < MOST:
            self._lines[written(call)] = None
        else:
            self._more += 1

    def lines(self) -> Tuple[str, ...]:
        """What is told of them."""
        more = f"and {self._more:,} more calls" if self._more else ""
        return (*self._lines, more) if more else tuple(self._lines)

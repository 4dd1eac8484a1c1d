"""Follows a pickle as its most lenient reader does, with the values that it pushes.

What stands for a value, and what is done with a call, a class says that is derived from this one.
"""

from __future__ import annotations

import functools
import pickletools
from typing import Any, Callable, Dict, List, Tuple, Type

from .lenient import ANY, Names, Walk, acts_of
from .source import Source
from .spelled import Stop

Act = Callable[[Any], object]
LITERALS = frozenset(
    "int long int_or_bool bytes_or_str bytes bytearray str float".split()
)
"""The kinds of values, as `pickletools` calls them, that an instruction has as its argument."""
LIST, TUPLE, DICT, SET, FROZENSET = "[]", "(,)", "{:}", "{}", "frozenset"
"""What values are collected in."""


class Valued(Walk):
    """Follows a pickle with its values."""

    def __init__(self, source: Source, at: int, is_open: bool = False) -> None:
        super().__init__(source, at, is_open)
        self._dropped: List[Any] = []
        """What the last mark had above it."""
        self._front = source.read(at, 2)
        self._pair: Names = (None, None)

    def again(self) -> Tuple[bool, bool]:
        self._front = self.source.read(self.at, 2)
        return super().again()

    # ---- what a derived class says

    def _imported(self, names: Names) -> Any:
        """What stands for an import."""
        return ANY

    def _literal(self, it: Any, begin: int) -> Any:
        """What stands for the argument of an instruction, which begins at a place."""
        return self._stack[-1]

    def _constant(self, text: str) -> Any:
        """What stands for a constant of Python."""
        return self._stack[-1]

    def _collected(self, brackets: str, items: List[Any]) -> Any:
        """What stands for values in brackets."""
        return self._stack[-1]

    def _filled(self, name: str, items: List[Any]) -> None:
        """An instruction puts values into what is on top."""

    def _call(self, name: str, function: Any, given: List[Any]) -> Any:
        """What stands for what a call returns. REDUCE, NEWOBJ and NEWOBJ_EX give all arguments as
        one value; the last has another for those with names.
        """
        return ANY

    def _known(self, value: Any) -> Any:
        """A value as a walk knows it that only looks for imports."""
        return value

    # ---- the instructions

    def to_mark(self) -> None:
        self._dropped = self._stack
        super().to_mark()

    def _import(self, module: bytes, name: bytes) -> None:
        super()._import(module, name)
        self._pair = (module, name)

    def by_lines(self, coding: str = "utf-8") -> None:
        super().by_lines(coding)
        self._stack[-1] = self._imported(self._pair)

    def from_stack(self) -> None:
        self._stack[-2:] = map(self._known, self._stack[-2:])
        self._pair = (None, None)
        super().from_stack()
        if self._pair != (None, None):
            self._stack[-1] = self._imported(self._pair)

    def instance(self) -> None:
        super().instance()
        *words, function = self._dropped
        self._stack[-1] = self._call("INST", function, words)

    def instance_of(self) -> None:
        super().instance_of()
        function, *words = self._dropped
        self._stack[-1] = self._call("OBJ", function, words)

    def called(self, act: Act, name: str) -> None:
        """An instruction that takes a function and its arguments, and perhaps named ones."""
        count = 3 if name == "NEWOBJ_EX" else 2
        if len(self._stack) < count:
            raise Stop  # (no reader goes on)
        function, *given = self._stack[-count:]
        act(self)
        self._stack[-1] = self._call(name, function, given)

    def literal(self, act: Act, it: Any) -> None:
        """An instruction whose argument is the value."""
        begin = self.at
        act(self)
        self._stack[-1] = self._literal(it, begin)

    def constant(self, act: Act, text: str) -> None:
        """An instruction that pushes a constant."""
        act(self)
        self._stack[-1] = self._constant(text)

    def tupled(self, act: Act, count: int) -> None:
        """An instruction that makes a tuple of so many values."""
        items = self._stack[len(self._stack) - count :]
        act(self)
        self._stack[-1] = self._collected(TUPLE, items)

    def gathered(self, act: Act, brackets: str) -> None:
        """An instruction that makes a value of what is above the mark, if it takes that."""
        self._dropped = []
        act(self)
        self._stack[-1] = self._collected(brackets, self._dropped)

    def filled(self, act: Act, name: str) -> None:
        """An instruction that puts values into another."""
        count = _FILLING[name]
        items = self._stack[len(self._stack) - count :]
        act(self)
        self._filled(name, items if count else self._dropped)


_FILLING = {"APPEND": 1, "SETITEM": 2, "APPENDS": 0, "SETITEMS": 0, "ADDITEMS": 0}
"""How many values these put into another; 0: those above the mark."""
_WITH: Dict[str, Tuple[Callable[..., object], Any]] = {
    "NONE": (Valued.constant, "None"), "NEWTRUE": (Valued.constant, "True"),
    "NEWFALSE": (Valued.constant, "False"), "EMPTY_TUPLE": (Valued.gathered, TUPLE),
    "EMPTY_LIST": (Valued.gathered, LIST), "EMPTY_DICT": (Valued.gathered, DICT),
    "EMPTY_SET": (Valued.gathered, SET), "LIST": (Valued.gathered, LIST),
    "DICT": (Valued.gathered, DICT), "FROZENSET": (Valued.gathered, FROZENSET),
    "TUPLE": (Valued.gathered, TUPLE), "TUPLE1": (Valued.tupled, 1), "TUPLE2": (Valued.tupled, 2),
    "TUPLE3": (Valued.tupled, 3), **{name: (Valued.filled, name) for name in _FILLING},
    **{name: (Valued.called, name) for name in ("REDUCE", "NEWOBJ", "NEWOBJ_EX")},
}
"""Instructions by what they do besides what `Walk` does for them."""


def with_values(kind: Type[Valued]) -> Dict[int, Act]:
    """What each instruction does for such a walk, by its code."""
    found: Dict[int, Act] = dict(acts_of(kind))
    for it in pickletools.opcodes:
        code, after = ord(it.code), [kind.name for kind in it.stack_after]
        if it.name in _WITH:
            method, given = _WITH[it.name]
            found[code] = functools.partial(_with, method, found[code], given)
        elif it.arg is not None and not LITERALS.isdisjoint(after):
            found[code] = functools.partial(_with, Valued.literal, found[code], it)
    return found


def _with(method: Callable[..., object], act: Act, given: Any, walk: Valued) -> None:
    method(walk, act, given)

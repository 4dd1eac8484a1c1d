"""What a pickle gets in place of a listed name."""

from __future__ import annotations

import functools
import importlib
from typing import Any, Callable, Optional, Tuple

from ._answers import Misused
from ._facts import VALUES

BECOMES_REAL, IS_PASSED, IS_WRAPPER, IS_JUDGED = 1, 2, 4, 8
"""Roles, as `uses.c` knows them: a name that is the real object where it is a value; a class that
some functions take as an argument; joblib's wrapper of arrays; what makes objects that are judged.
"""


OF_NONE, OF_ONE, OF_TEXT, OF_TEXTS, NEW_OF_NONE = (1 << 12 + k for k in range(5))
"""More roles: what does as the real object does when it is called with nothing, with one argument
that no call has made, with a short text, or with such texts, or makes a new object with nothing.
"""
EMPTY = OF_NONE | NEW_OF_NONE
"""The role of a class of values that are empty by default."""
ANSWERS = 1 << 17
"""The role of what answers functions, which a pickle may call."""
_VALUES = frozenset(VALUES)
NUMBERED = 1 << 10
"""More than the names that `uses.c` numbers, and what it divides a role by."""


def pickles_by_value(module: str) -> bool:
    """Whether the names of a module make functions and classes of what a pickle holds, which it
    calls in turn: those of cloudpickle, also where other packages carry it, and of dill. Who lists
    one of them permits everything.
    """
    return not _VALUES.isdisjoint(module.split("."))


def takes(*places: int) -> int:
    """The role of a function that takes classes as these of its arguments."""
    return sum(16 << place for place in places)


def nothing(reader: Any, name: str, given: Tuple[Any, ...]) -> None:
    """Takes no arguments."""
    if given:
        raise Misused(f"{name} is created with unexpected arguments")


def _refuse(name: str, *given: Any) -> Any:
    raise Misused(f"{name} is called, which no pickler does")


class Substitute:
    """What a pickle gets for a name. It can be called, and passed on as its role says."""

    __slots__ = ("name", "role", "_call")

    def __init__(self, name: str, call: Callable[..., Any], role: int = 0) -> None:
        self.name, self.role, self._call = name, role, call

    def __call__(self, *given: Any) -> Any:
        return self._call(*given)

    def __repr__(self) -> str:
        return f"<substitute for {self.name}>"

    def new(self, reader: Any, *given: Any) -> Any:
        """What NEWOBJ makes of it for a reader."""
        if given or not self.name.startswith(("builtins.", "collections.")):
            raise Misused(f"NEWOBJ of {self.name}, which picklers only call")
        kind = self.real()
        return kind.__new__(kind)

    def within(self, reader: Any) -> Substitute:
        """What a pickle gets that this reader loads."""
        return self

    def real(self) -> Any:
        """The object that has this name."""
        return _real(self.name)


class Remembering(Substitute):
    """A substitute whose calls are told apart by the reader that makes them."""

    __slots__ = ()

    def within(self, reader: Any) -> Substitute:
        return _Within(self, reader.itself)


class Value(Substitute):
    """A function or a class that picklers write as a value, and never call."""

    __slots__ = ()

    def __init__(self, name: str) -> None:
        super().__init__(name, functools.partial(_refuse, name), BECOMES_REAL)


class _Within(Substitute):
    """A substitute as one reader's pickle has it."""

    __slots__ = ("_of", "_reader")

    def __init__(self, of: Substitute, reader: Callable[[], Any]) -> None:
        super().__init__(of.name, of._call, of.role)
        self._of, self._reader = of, reader

    def new(self, reader: Any, *given: Any) -> Any:
        return self._of.new(reader, *given)

    def real(self) -> Any:
        return self._of.real()

    def __call__(self, *given: Any) -> Any:
        reader = self._reader()
        if reader is None:
            raise Misused(f"{self.name} is called after the pickle was loaded")
        return self._call(reader, *given)


class Class(Substitute):
    """A class that picklers give to NEWOBJ. They call few of these."""

    __slots__ = ("_kind", "_news")

    def __init__(
        self,
        name: str,
        kind: Any = None,
        news: Callable[..., Any] = nothing,
        call: Optional[Callable[..., Any]] = None,
        role: int = 0,
    ) -> None:
        super().__init__(name, call or functools.partial(_refuse, name), BECOMES_REAL | role)
        self._kind, self._news = kind, news

    def judge_new(self, reader: Any, given: Tuple[Any, ...]) -> None:
        """Refuses what NEWOBJ isn't given by picklers."""
        self._news(reader, self.name, given)

    def new(self, reader: Any, *given: Any) -> Any:
        self.judge_new(reader, given)
        kind = self.real()
        return kind.__new__(kind, *given)

    def real(self) -> Any:
        return self._kind if self._kind is not None else super().real()


@functools.lru_cache(maxsize=None)
def _real(path: str) -> Any:
    module, _, name = path.rpartition(".")
    return getattr(importlib.import_module(module), name)

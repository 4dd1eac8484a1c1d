"""What a pickle does with the names that are loaded through substitutes.

It may call them, and hand a class to NumPy's functions. As a value, such as the item of a list, a
substitute would be left in what is loaded. There a name becomes the real object, if no call of that
does harm; and a pickle with any other is refused before any of it is loaded.
"""

from __future__ import annotations

import functools
import itertools
from typing import Any, Dict, FrozenSet, List, Mapping, Optional, Tuple

from . import _names
from ._answers import Misused
from ._storklocker import begin_judging, begin_uses, uses
from ._objects import found
from ._plain import LOADS
from ._substitute import (
    ANSWERS, IS_JUDGED, IS_WRAPPER, NUMBERED, Substitute, pickles_by_value
)
from ._table import substitute_of

Pair = Tuple[str, str]
Piece = Tuple[bytes, int, int]
"""Bytes, and the begin and the end of what counts of them."""
Told = Tuple[List[Piece], bool, int, int, int]
"""What is told of a pickle, as `walk.h` has it."""


class _Numbers:
    """Numbers the pairs that have substitutes."""

    __slots__ = ("of", "_next")

    def __init__(self) -> None:
        self.of: Dict[Pair, int] = {}
        self._next = itertools.count(1)

    def number(self, pair: Pair, role: Optional[int]) -> int:
        """The number and the role of a pair; 0 without a role. A class of which each object is
        judged has no number.
        """
        if role is None or role == _UNNAMED:
            return role or 0
        number = self.of.get(pair) or self.of.setdefault(pair, next(self._next))
        if number >= NUMBERED:
            raise Misused("the pickle writes the names that have substitutes in too many ways")
        return number + role * NUMBERED


NOTHING, OBJECTS, NAMES = 0, 1, 2
"""What is judged while a pickle is loaded, as `walk.h` has it."""
_MEANT = ANSWERS * NUMBERED
_UNNAMED = IS_JUDGED * NUMBERED
"""The role of a class without a substitute, and of what calls one, of which objects are judged."""
_MAKERS = frozenset((("copyreg", "__newobj__"), ("copyreg", "__newobj_ex__")))
_SHARED = _Numbers()
"""The numbers of pairs that have the same substitute under all lists."""
_ROOM = NUMBERED // 2
"""How many numbers must be left of these for a reader that is made."""


class Uses:
    """Follows the pickles that one reader loads."""

    __slots__ = (
        "is_whole", "judges", "takes_any", "_own", "_meant", "_kept", "_numbers", "_is_old"
    )

    def __init__(
        self,
        own: Mapping[Pair, Substitute],
        wrappers: FrozenSet[Pair],
        meant: FrozenSet[Pair],
        is_shared: bool = True,
    ) -> None:
        self.is_whole = True
        """Whether each instruction of the last pickle was followed."""
        self.judges = NAMES
        """What of the last pickle is judged while it is loaded."""
        self.takes_any = False
        """Whether BUILD may take what the pickle hasn't made."""
        self._own: Dict[Pair, int] = {}
        if own or wrappers:
            self._own = dict.fromkeys(wrappers, IS_WRAPPER)
            self._own.update((pair, own[pair].role) for pair in own)
        self._meant = meant
        self._kept = begin_uses()
        is_shared = is_shared and not self._own and not meant and len(_SHARED.of) < _ROOM
        self._numbers = _SHARED if is_shared else _Numbers()
        self._is_old = False

    def respelled(self, data: bytes, at: int, is_old: bool) -> List[Piece]:
        """What a reader is given in place of the pickle at an offset. Raises Misused if the pickle
        has a name as a value that can't be the real object.
        """
        self._is_old = is_old
        number_of = self._number_of
        if self._numbers is _SHARED:
            number_of = _shared_old if is_old else _shared_new
        return self.taken(uses(self._kept, data, at, number_of, self.takes_any))

    def taken(self, told: Told) -> List[Piece]:
        """The same, of what is told of the pickle."""
        pieces, self.is_whole, number, place, self.judges = told
        if place >= 0 and number == 0:
            raise Misused(
                f"at byte {place:,} the pickle sets a state or items on an object that it didn't"
                " make, or that has a state"
            )
        if place >= 0 and number < 0:
            raise Misused(
                f"at byte {place:,} the pickle calls the result of its own call: only names under"
                " [substitutes] of its list may return functions"
            )
        if place >= 0:
            pair = next(pair for pair, its in self._numbers.of.items() if its == number)
            raise Misused(
                f"{'.'.join(pair)} is a value at byte {place:,}: it is loaded through a substitute,"
                " which can be called, but not kept in the loaded object"
            )
        return pieces

    def _number_of(self, module: bytes, name: bytes) -> int:
        """The number and the role of what an import asks for, given the instructions that push the
        names; 0 if that has no substitute.
        """
        pair, role = _asked(module, name, self._is_old)
        return self._told(pair, self._own.get(pair, role))

    def _told(self, pair: Pair, role: Optional[int]) -> int:
        """The number and the role of a pair, and whether the list means it to answer functions."""
        is_meant = pair in self._meant or pickles_by_value(pair[0])
        return self._numbers.number(pair, role) + (_MEANT if is_meant else 0)


def begin(guard: Any, judges: Any) -> None:
    """Has a guard find out by itself which reader a pickle needs, and load what needs no
    substitutes.
    """
    begin_judging(guard, _shared_new, judges)


@functools.lru_cache(maxsize=4096)
def _shared_new(module: bytes, name: bytes) -> int:
    return _shared(*_asked(module, name, False))


@functools.lru_cache(maxsize=4096)
def _shared_old(module: bytes, name: bytes) -> int:
    return _shared(*_asked(module, name, True))


def _shared(pair: Pair, role: Optional[int]) -> int:
    return _SHARED.number(pair, role) + (_MEANT if pickles_by_value(pair[0]) else 0)


@functools.lru_cache(maxsize=4096)
def _asked(module: bytes, name: bytes, is_old: bool) -> Tuple[Pair, Optional[int]]:
    """What is imported by the names that these instructions push, and the role of the substitute
    that it has under all lists.
    """
    pair = named_by(module, name, is_old)
    substitute = substitute_of(pair)
    if substitute is not None:
        return pair, substitute.role
    return pair, _UNNAMED if pair in _MAKERS or _is_error(found(*pair)) else None


def _is_error(it: Any) -> bool:
    return isinstance(it, type) and issubclass(it, BaseException)


def named_by(module: bytes, name: bytes, is_old: bool) -> Pair:
    """The names that these instructions push."""
    if module[:1] == b"c":
        first, second = module[1:-1].decode().split("\n")
    else:
        first, second = LOADS(module + b"."), LOADS(name + b".")
    return _names.renamed((first, second)) if is_old else (first, second)

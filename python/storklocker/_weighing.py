"""What values cost that functions hash, compare, copy or show as trees, though a pickle shares
their parts.
"""

from __future__ import annotations

import datetime
import gc
import sys
import types
from collections import deque
from typing import TYPE_CHECKING, Any, Dict, Iterable, List, Tuple

from ._answers import Misused

if TYPE_CHECKING:
    from ._reader import Reader

MOST, DEEPEST = 1_000_000, 1_000
"""The most parts and levels of a value, as a tree: those that a key may have by default."""
SHOWN = 14_000
"""The most bits of a number that is shown: somewhat less than CPython's 4,300 digits."""
SHOWN_DIGITS = 4_000
SCALARS = (
    type(None), bool, int, float, complex, str, bytes, bytearray, type(...), datetime.date,
    datetime.datetime, datetime.time, datetime.timedelta, datetime.timezone,
)
CONTAINERS = (list, tuple, set, frozenset, dict)
"""The classes of containers that a pickle fills itself."""
_QUICK = frozenset((type(None), bool, float, str, bytes, datetime.date))
"""Classes of keys whose hash takes no longer than they are."""
_LONG = 1 << 64
_ROWS = (str, bytes, bytearray, list, tuple, dict, set, frozenset, deque)
_NAMES = (type, types.ModuleType, types.FunctionType, types.BuiltinFunctionType, types.MethodType)
_Cost = Tuple[int, int, int]
"""The number of parts as a tree, and of its levels, and what its numbers and texts take beside."""


class Scales:
    """Weighs values, and remembers each part that it has seen."""

    def __init__(self, reader: Reader, are_keys: bool) -> None:
        self._held, self._are_keys = reader.itself, are_keys
        self._costs: Dict[int, Tuple[Any, _Cost]] = {}
        """The parts by id."""

    def weigh(self, value: Any) -> int:
        """The number of parts of a value, and the length of those that are long. Raises Misused if
        it has too many parts, or contains itself.
        """
        size, levels, length = self._cost(value)
        if size > MOST or levels > DEEPEST:
            raise Misused("a value has too many parts, counted as often as they occur")
        return size + length

    def _cost(self, value: Any) -> _Cost:
        left: List[Tuple[Any, Any]] = [(value, None)]
        while left:
            part, inside = left.pop()
            if inside is None:
                if type(part) in SCALARS or id(part) in self._costs:
                    self._check_open(part)
                    continue
                inside = self._parts_of(part)
                reader: Any = self._held()
                reader.step(1 + len(inside))
                self._costs[id(part)] = (part, (-1, 0, 0))  # (as long as it is open)
                left.append((part, inside))
                left += [(it, None) for it in inside]
            else:
                self._costs[id(part)] = (part, self._sum(inside))
        return self._of(value)

    def _check_open(self, part: Any) -> None:
        if self._of(part)[0] < 0:
            raise Misused("a value that is copied or shown contains itself")

    def _sum(self, inside: Iterable[Any]) -> _Cost:
        size, levels, length = 1, 0, 0
        for it in inside:
            own, deep, its = self._of(it)
            size, levels = min(size + own, MOST + 1), max(levels, deep)
            length = min(length + its, 1 << 62)
        return size, min(levels + 1, DEEPEST + 1), length

    def _of(self, part: Any) -> _Cost:
        if type(part) in SCALARS:
            return 1, 0, self._length(part)
        return self._costs[id(part)][1]

    def _length(self, part: Any) -> int:
        """What a plain value takes beside a part: the words of a number, whose hash it doesn't
        keep, or the text that is shown. That of a number takes the square of its length.
        """
        if type(part) is not int:
            is_text = not self._are_keys and type(part) in (str, bytes, bytearray)
            return len(part) if is_text else 0
        bits = part.bit_length()
        if not self._are_keys and bits > SHOWN:
            raise Misused("a number that is shown has too many digits")
        return bits >> 6 if self._are_keys else bits * bits >> 10

    def _parts_of(self, part: Any) -> List[Any]:
        """What a hash, or for other values anything, may look at."""
        if self._are_keys:
            if isinstance(part, slice):
                return [part.start, part.stop, part.step]
            if isinstance(part, tuple):
                return list(tuple.__iter__(part))
            return list(frozenset.__iter__(part)) if isinstance(part, frozenset) else []
        kind = type(part)
        if isinstance(part, _NAMES):
            return []
        numpy: Any = sys.modules.get("numpy")
        if numpy is not None and isinstance(part, (numpy.ndarray, numpy.generic)):
            held: List[Any] = part.ravel().tolist() if part.dtype.hasobject else []
            return held
        decimal: Any = sys.modules.get("decimal")
        if decimal is not None and isinstance(part, decimal.Decimal):
            if abs(part.adjusted()) > SHOWN_DIGITS:  # (`%d` writes them all)
                raise Misused("a number that is shown has too many digits")
            return [decimal.Decimal.__str__(part)]
        if isinstance(part, BaseException):
            return _parts_of_error(part)
        is_lazy = hasattr(kind, "__iter__") or hasattr(kind, "__getitem__")
        if is_lazy and not isinstance(part, _ROWS):
            raise Misused(f"a {kind.__name__} is given for a plain value")
        return [it for it in gc.get_referents(part) if not isinstance(it, _NAMES)]


def _parts_of_error(error: BaseException) -> List[Any]:
    """What an exception has. Django's have themselves in a list, where they are the only one."""
    held = (it for it in gc.get_referents(error) if it is not error.__dict__)
    own = error.__dict__.values()
    return [
        it for it in (*held, *own)
        if not isinstance(it, _NAMES) and not (type(it) is list and len(it) == 1 and it[0] is error)
    ]


def keys_of(reader: Reader, keys: Iterable[Any]) -> None:
    """Judges what becomes keys, which are hashed again and again."""
    total = 0
    for key in keys:
        total += 1
        if type(key) is int:
            total += 0 if -_LONG < key < _LONG else key.bit_length() >> 6
        elif type(key) not in SCALARS:
            total += reader.keys.weigh(key)
    reader.pay(total)


def items_as_keys(reader: Reader, items: List[Any]) -> None:
    """Judges the objects of an array that a library hashes, and where it can't, tells nobody."""
    if not set(map(type, items)) <= _QUICK:
        keys_of(reader, items)
        try:
            set(map(hash, items))
        except TypeError:
            raise Misused("an object that can't be hashed is given for a key") from None


def values(reader: Reader, given: Any) -> None:
    """Judges values of any kind that a function looks through, copies or shows."""
    reader.pay(Scales(reader, False).weigh(given))

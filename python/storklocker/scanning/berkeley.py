"""Files of Berkeley DB, which some modules of dbm write: a long value lies in a chain of pages."""

from __future__ import annotations

import struct
from typing import Callable, Dict, Iterator, List, Set, Tuple

from .marks import BERKELEY_ORDERS
from .readings import Found, Piece, Place
from .source import Source, joined
from .stores import is_value, searched

KIND = "Berkeley DB"
_HEADER, _OVERFLOW = 26, 7
"""The length of a page's header, and the kind of page that has a part of a long value."""
_LEAST, _MOST = 1 << 9, 1 << 16
"""The least and the most bytes of a page."""


def berkeley_reading(place: Place) -> Found:
    """What a program gets to that loads a value."""
    source = place.source
    order = BERKELEY_ORDERS.get(source.read(12, 4))
    if order is None:
        return False
    known: List[Tuple[int, int]] = []
    told: Set[int] = set()
    size = int.from_bytes(source.read(20, 4), "little" if order == "<" else "big")
    is_right = _LEAST <= size <= _MOST and size & (size - 1) == 0
    for parts in _chains(source, size, order, place.budget.spend) if is_right else ():
        value, taken, start = joined(source, parts), 0, parts[0][0]
        if is_value(value, place.budget):
            taken = (yield Piece(f"{place.path}!at {start}", KIND, value, True, 1)) or 1
            told.add(start)
            known += [(at, at + count) for at, count in parts] if taken > 1 else []
        inner = place.inside(f"at {start}", value, KIND)
        yield from searched(inner, KIND, [(0, taken)], {0} if taken else ())
    known.sort()
    end_of = (lambda at: (at // size + 1) * size) if is_right else None
    yield from searched(place, KIND, known, told, end_of)
    return True


def _chains(
    source: Source, size: int, order: str, tick: Callable[[], object]
) -> Iterator[List[Tuple[int, int]]]:
    """Where the parts are of each value that has pages of its own. A chain begins at a page to
    which no other one leads.
    """
    following: Dict[int, int] = {}
    lengths: Dict[int, int] = {}
    for number in range(source.size // size):
        tick()
        header = source.read(number * size, _HEADER)
        if header[-1] == _OVERFLOW:
            following[number], _, lengths[number] = struct.unpack_from(f"{order}I2H", header, 16)
    first = set(following).difference(following.values())
    seen: Set[int] = set()
    for start in (*sorted(first), *following):  # (where all lead to one another, any is the first)
        page, here, parts = start, set(), []  # type: int, Set[int], List[Tuple[int, int]]
        while start not in seen and page in following and page not in here:
            here.add(page)
            tick()
            count = min(lengths[page], size - _HEADER)
            parts += [(page * size + _HEADER, count)] * (count > 0)
            page = following[page]
        seen |= here
        if parts:
            yield parts

"""Shelves of `dbm.dumb`: values in a file `.dat`, whose places are in a text `.dir` beside it."""

from __future__ import annotations

import ast
import io
import re
from functools import partial
from typing import Any, Dict, Iterator, Optional, Sequence, Tuple

from .batches import parts_of
from .budget import STEP, TooMuch
from .places import PLACES, VALUES
from .readings import Found, Place
from .source import Source
from .stores import searched
from .values import Values

_LONGEST = 1 << 16
"""The most characters of a line of `.dir`: more take too long to be read."""

_PLAIN = re.compile(r"'([ -&(-\[\]-~]*)', \((0|[1-9][0-9]{0,15}), (0|[1-9][0-9]{0,15})\)")
"""A line as `dbm.dumb` writes most: to read one as Python does takes longer."""

_Values = Dict[Tuple[int, int], str]
"""The offset and the size of each value, and its key."""
_Item = Tuple[Tuple[int, int], str]


class _Broken(Exception):
    """A line that the reader can't read either, in a file that it would open."""


def shelf_reading(place: Place) -> Found:
    """What `shelve` gets to by the places; at the first byte, what `pickle.load` does. Behind a
    value are zeros, or what is left of an older one.
    """
    beside = place.beside() if place.path.lower().endswith(VALUES) else None
    if beside is None:
        return False
    try:
        values = _values(beside, place)
    except _Broken as error:
        yield place.unread("dbm.dumb", "broken-container", f"{PLACES} can't be read: {error}")
        return False
    if values is None:
        return False
    place.budget.shelves.add(place.source.place(0))
    taken = yield place.piece("dbm.dumb", most=1)
    if taken:
        yield place.piece("after a value", taken)
    plain = Values(place, "dbm.dumb")
    taken_of = partial(_taken_of, place, plain)
    for (start, size), key in plain.batches.left_of(list(values.items()), taken_of):
        inner = place.inside(key or "''", place.source.part(start, size), "value")
        if not (yield from plain.member(inner)):
            yield from searched(inner, "dbm.dumb")  # (dogpile.cache has more in front)
    yield from plain.told()
    return True


def _taken_of(place: Place, plain: Values, those: Sequence[_Item]) -> int:
    """How many of the first of these are plain values, which are told later."""
    if not plain.is_begun:
        return 0
    begins, ends = [at for (at, _), _ in those], [at + size for (at, size), _ in those]
    found = parts_of(place.source, begins, ends)
    return plain.taken_of([key or "''" for _, key in those], *found) if found[1] else 0


def _values(beside: Source, place: Place) -> Optional[_Values]:
    """The values, as `dbm.dumb` reads their places; None if it doesn't read these."""
    found: _Values = {}
    for line in _lines(beside):
        place.budget.spend(STEP + len(line) // 2)
        plain = _PLAIN.fullmatch(line)
        if plain:
            name, start, size = plain.groups()
            found[(int(start), int(size))] = name
            continue
        try:
            key, both = ast.literal_eval(line.strip(" \t"))
            key.encode("latin-1")
        except Exception as error:  # of the parser, which hostile lines make raise anything
            if line.lstrip(" \t")[:1] not in ("'", '"'):  # as `whichdb` looks at it
                return None
            raise _Broken(f"{type(error).__name__} in a line") from None
        part = _part(both, place.source.size)
        if part is not None:
            found[part] = key
    return found


def _lines(beside: Source) -> Iterator[str]:
    with io.TextIOWrapper(beside.opened(), encoding="latin-1") as opened:
        while True:
            line = opened.readline(_LONGEST + 1)
            if not line:
                return
            if len(line) > _LONGEST:
                raise TooMuch(f"{PLACES} has a line of more than {_LONGEST:,} characters")
            yield line.rstrip()


def _part(both: Any, end: int) -> Optional[Tuple[int, int]]:
    """The offset and the size that a reader takes these for; None if it takes them for none."""
    try:
        start, size = both
    except (TypeError, ValueError):
        return None
    if not isinstance(start, int) or start < 0 or not isinstance(size, (int, type(None))):
        return None
    return (int(start), end if size is None or size < 0 else int(size))

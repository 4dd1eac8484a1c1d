"""SQLite's databases, their logs and journals: each value as SQLite reads it, and what is left in
pages between them.
"""

from __future__ import annotations

import io
import re
from typing import Generator, Iterator, List, NamedTuple, Optional, Set, Tuple, Union

from .budget import STEP, Budget
from .packed import lacking_at, unread_packing
from .readings import Answer, Found, Nothing, Piece, Place, Together, Unread
from .report import LONGEST
from .source import Source, in_memory
from .spelled import LENGTHS
from .sqlite_cells import LEAST, PlainCells
from .sqlite_pages import DATABASE, JOURNAL, LOGS, Pages, Record, Value
from .sqlite_values import made_values
from .stores import is_value, searched
from .value_letters import may_hold
from .value_packing import is_packed, may_import, unpacked
from .values import Values

KIND = "SQLite"
_LONGEST = 1 << 20
"""Of a longer text in UTF-16 no more characters are read."""

_HEADER = 32
"""More bytes than a stream has in front."""
_SMALL, _UNPACKING = 1 << 20, 6 * STEP
"""A larger file has more steps; and those of a value that is unpacked by itself."""
_STOP, _WORDS = ord("."), re.compile(rb"[\t-\r -~]*")

_Parts = List[Tuple[int, int]]


class _Told(NamedTuple):
    """What was told of the values so far."""

    values: Values
    seen: Set[int]
    """The hashes of those that are pickles."""
    unread: Set[str]
    """By what others are packed that isn't read here."""


_Reads = Generator[Union[Piece, Unread, Nothing, Together], Answer, _Parts]


def sqlite_reading(place: Place) -> Found:
    """What a program gets to that loads a value. Other bytes may be values that were deleted, of
    which the page's end cuts the long ones.
    """
    if not place.source.front().startswith((DATABASE, JOURNAL, *LOGS)):
        return False
    place.budget.grow(max(0, place.source.size - _SMALL))  # each value is looked at twice
    pages, known = Pages(place.source, place.budget.spend), []  # type: Pages, _Parts
    values = Values(place, KIND)
    cells = PlainCells(values, place.budget)
    pages.left, told = cells.left, _Told(values, cells.seen, set())
    for record in pages.records():
        known += yield from _read(place, record, pages.encoding, told)
    yield from values.told()
    begins, ends = cells.known()
    if place.source.front().startswith(DATABASE):
        yield from _made(place, pages.schema, told.seen, (begins, ends))
    # (what is hidden is the same if the ends are put in order by themselves)
    begins += [at for at, _ in known]
    ends += [end for _, end in known]
    hidden = sorted(begins), sorted(ends)
    yield from searched(place, KIND, end_of=pages.end_of, hidden=hidden)
    return True


def _made(
    place: Place, schema: List[str], seen: Set[int], known: Tuple[List[int], List[int]]
) -> Found:
    """The values that SQL makes, but for those that were told: by hashes, and in parts."""
    are_all_seen = False
    for number, made in enumerate(made_values(place.source, schema, place.budget)):
        if made.fault:
            yield place.unread(KIND, "differing-readings", made.fault)
            continue
        if not are_all_seen:
            are_all_seen = True
            seen.update(hash(place.source.read(at, end - at)) for at, end in zip(*known))
        if len(made.data) >= LEAST and hash(made.data) not in seen:
            path = f"{place.path}!{made.name[:LONGEST]} {number}"
            yield from _loaded(path, in_memory(io.BytesIO(made.data)), place.budget, None)
    return True


def _loaded(
    path: str, source: Source, budget: Budget, values: Optional[Values]
) -> Generator[Piece, Answer, int]:
    """The pickle that a value is, or which is packed in it; a plain one that is packed may be told
    later. Returns its length, if it is one.
    """
    if is_value(source, budget):
        return (yield Piece(path, KIND, source, True, 1)) or 1
    for inner in unpacked(source, budget):
        if is_value(inner, budget):
            budget.spend(_UNPACKING)
            data = inner.front()
            if values is not None and values.taken(data) == inner.size > 0:
                return source.size
            yield Piece(path, f"{KIND}, packed", inner, True, 1)
            return source.size
    return 0


def _read(place: Place, record: Record, encoding: str, told: _Told) -> _Reads:
    """The pickles in a record. Returns which parts of the file they have, from an offset to
    another.
    """
    found: _Parts = []
    (start, size), *others = record.parts
    for value in record.values():
        wide = encoding if value.is_text else ""
        place.budget.spend(1)
        if not (wide or others or _may_import(record.front, value.at, value.at + value.size)):
            continue
        source = _content(record, value, wide)
        data = source.front()
        if source.size < LEAST or wide and not _may_import(data, 0, len(data)):
            continue
        if not (wide or others) and told.values.taken(data) == value.size > 0:
            found.append((value.at, value.at + value.size))
            told.seen.add(hash(data))
            continue
        place.budget.spend()
        yield from _unread(place, source, told.unread)
        path = f"{place.path}!at {start + value.at}"
        taken = yield from _loaded(path, source, place.budget, told.values)
        if taken:
            found.append((value.at, value.at + taken))
            told.seen.add(hash(data))
    if others:
        yield from searched(place.inside(f"at {start}", record.source, KIND), KIND, found)
    parts = [(start + at, start + min(end, size)) for at, end in found if at < size]
    return parts + [(at, at + more) for at, more in others if found]


def _unread(place: Place, source: Source, told: Set[str]) -> Iterator[Unread]:
    """What is to be said of a value that is packed in a way that isn't read here, once."""
    name = unread_packing(source) or lacking_at(source.front()[:_HEADER])
    if name and name not in told:
        told.add(name)
        why = f"values may be packed by {name}, which a scan can't unpack"
        yield place.unread(KIND, "unread-pickles", why)


def _may_import(data: bytes, at: int, end: int) -> bool:
    """Whether a value may be a pickle that imports something. One in printable ASCII that doesn't
    end with STOP isn't, but for what is harmful, which is looked for anyway, if it isn't in UTF-16.
    """
    if end - at < LEAST or not may_import(data, at, end):
        return False
    is_in_words = data[end - 1] != _STOP and _WORDS.fullmatch(data, at, end) is not None
    if data[at] in LENGTHS and not is_in_words:
        return True
    return is_packed(data, at, end) or may_hold(data, at, end)


def _content(record: Record, value: Value, wide: str) -> Source:
    """The bytes of a value; of a text in this encoding those of ASCII, as protocol 0 has them."""
    source, data = record.source, record.front[value.at : value.at + value.size]
    if wide:
        text = source.read(value.at, min(value.size, _LONGEST)).decode(wide, "replace")
        data = text.encode("utf-8", "replace")
    elif len(record.parts) > 1:
        return source.part(value.at, value.size)
    return in_memory(io.BytesIO(data))

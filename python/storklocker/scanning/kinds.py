"""Stores that are looked through for pickles, and records behind their lengths."""

from __future__ import annotations

import re
from typing import Tuple

from .marks import RECORDS
from .readings import Found, Piece, Place
from .redis_dumps import packed_strings
from .source import BLOCK
from .stores import imports_at, is_value, searched
from .values import Values

REDIS = "dump of Redis"
STORES: Tuple[Tuple[bytes, str], ...] = (
    (rb"FS(?:21|20|30)", "Data.fs of ZODB"),
    (rb"SEQ[\4-\6]", "SequenceFile of Hadoop"),
    (rb"[\x81-\x8f\xde].{0,9}(?:\xa2|\xc4\x02)nd\xc3", "msgpack of msgpack-numpy"),
    (rb"REDIS[0-9]{4}", REDIS),
    (rb"\*[1-9][0-9]{0,9}\r\n\$[0-9]", "append-only file of Redis"),
)
"""How files begin that are looked through for pickles."""


_RECORDS = re.compile(RECORDS, re.DOTALL)
_STORED = tuple((re.compile(begun, re.DOTALL), name) for begun, name in STORES)

def stored_reading(place: Place) -> Found:
    """The pickles in stores that no reading of their own has."""
    front = place.source.front()
    if _RECORDS.match(front) and (yield from _records(place)):
        return True
    for begun, name in _STORED:
        if begun.match(front):
            yield from searched(place, name)
            if name == REDIS:
                yield from packed_strings(place)
            return True
    return False


def _records(place: Place) -> Found:
    """Pickles behind their lengths, as `SocketHandler` of `logging` sends them. A reader that loads
    one gets to the next, whatever that begins with, and loads what is there of the last.
    """
    source, at, is_any = place.source, 4, False
    values = Values(place, "record")
    while at < source.size:
        size = min(int.from_bytes(source.read(at - 4, 4), "big"), source.size - at)
        record = source.part(at, size)
        if 0 < size <= BLOCK and values.taken(source.read(at, size)) == size:
            is_any = True
        elif size and is_value(record, place.budget):
            is_any = True
            place.budget.spend_member()
            yield Piece(f"{place.path}!at {at}", "record", record, True, 1)
        elif not size or not imports_at(record, 0, place.budget).end:
            break
        at += size + 4
    yield from values.told()
    return is_any

"""Dumps of Redis, in which queues keep jobs: long strings are packed by LZF."""

from __future__ import annotations

import io
import re
from typing import Optional, Tuple

from .budget import STEP
from .readings import Found, Place
from .source import BLOCK, in_memory
from .stores import searched

_PACKED = re.compile(rb"\xc3(?=[\0-\x80])")
"""How a string begins that is packed: behind it are its length and that of what it unpacks to."""
_LARGEST, _FIRST, _FRONT = 1 << 24, 256, 16
"""The most bytes of a string that is unpacked here, how many of it are tried first, and more than
it has in front.
"""
_AS_IT_IS, _MOST = 32, 100
"""Below this a number says how many bytes follow as they are; and more bytes than one of LZF stands
for.
"""
_SHORT, _LONG = 0x40, 0x80
"""From which first byte on a length has two bytes; and that of one with five."""


def unpacked_by_lzf(data: bytes, size: int) -> Tuple[bytes, int]:
    """What LZF unpacks to, at most about this size, and where that ends: at a fault, or at the end.
    """
    made, at = bytearray(), 0
    while at < len(data) and len(made) < size:
        control, begin = data[at], at
        if control < _AS_IT_IS:
            at += control + 2
            made += data[begin + 1 : at]
            continue
        count, at = control >> 5, at + 2
        if count == 7:
            count, at = count + data[min(at, len(data)) - 1], at + 1
        back = ((control & 31) << 8 | data[min(at, len(data)) - 1]) + 1
        if back > len(made) or at > len(data):
            return bytes(made), begin
        part = made[len(made) - back :][: count + 2]
        made += (part * ((count + 2) // len(part) + 1))[: count + 2]
    return bytes(made), at


def packed_strings(place: Place) -> Found:
    """The pickles in strings that are packed, each looked through by itself."""
    source = place.source
    for start in range(0, source.size, BLOCK):
        block = source.read(start, BLOCK + _FRONT)
        for found in _PACKED.finditer(block, 0, BLOCK):
            content = _content(block, found.end())
            place.budget.spend(2)
            if content is None:
                continue
            made = _unpacked(place, start, *content)
            if made:
                inner = place.inside(f"at {start + found.start()}", in_memory(io.BytesIO(made)), "")
                yield from searched(inner, "Redis, packed")
    return True


def _unpacked(place: Place, start: int, at: int, count: int, size: int) -> bytes:
    """What a string unpacks to of which the front tells these numbers; nothing if it isn't one."""
    data = place.source.read(start + at, min(count, _FIRST))
    made, end = unpacked_by_lzf(data, size)
    place.budget.spend(STEP + len(data))
    if len(data) < count and end >= len(data) - 2:
        place.budget.spend(count)
        place.budget.spend_bytes(size)
        data = place.source.read(start + at, count)
        made, end = unpacked_by_lzf(data, size)
    return made if end == count == len(data) and len(made) == size else b""


def _content(block: bytes, at: int) -> Optional[Tuple[int, int, int]]:
    """Where the content of a packed string begins, its length, and that of what it unpacks to."""
    numbers = []
    for _ in range(2):
        first = block[at] if at < len(block) else 0xFF
        width = 1 if first < _SHORT else 2 if first < _LONG else 5 if first == _LONG else 0
        if not width or at + width > len(block):
            return None
        number = int.from_bytes(block[at : at + width], "big")
        numbers.append(number - (_SHORT << 8 if width == 2 else _LONG << 32 if width == 5 else 0))
        at += width
    count, size = numbers
    is_packed = 4 < count < size <= min(_LARGEST, count * _MOST)
    return (at, count, size) if is_packed else None

"""Rows of HDF5's datasets that lie across several chunks, each of which has a part of each row."""

from __future__ import annotations

import math
import re
from typing import Dict, Iterator, List, Sequence, Set, Tuple, TypeVar

NEAR = 1 << 10
"""In so many bytes around the message on a layout is the one on the dataset's size."""
_MOST = 4
"""So many sizes are tried."""

It = TypeVar("It")


def counts_near(near: bytes, dims: Sequence[int], length: int) -> List[int]:
    """How many chunks of these dimensions may lie beside one another, as messages in some bytes say
    how large the dataset is, in numbers of so many bytes.
    """
    rank, found = len(dims), {}  # type: int, Dict[int, None]
    front = re.escape(bytes([rank]))
    for it in re.finditer(b"\1%b[\0-\3]\0{5}|\2%b[\0\1]\1" % (front, front), near, re.DOTALL):
        end = it.end() + rank * length
        size = int.from_bytes(near[end - length : end], "little")
        count = -(-size // dims[-1])
        if end <= len(near) and 1 < count < 1 << 32:
            found[count] = None
    return list(found)[:_MOST]


def beside(
    entries: Sequence[Tuple[Tuple[int, ...], It]], dims: Sequence[int], counts: Sequence[int]
) -> Iterator[List[It]]:
    """Those of these chunks, each with its place, that lie beside one another, if each has several
    rows. Of places that are mere numbers so many may.
    """
    if len(dims) < 2 or math.prod(dims[:-1]) < 2:
        return
    seen: Set[Tuple[int, int]] = set()
    for count in counts if entries and len(entries[0][0]) == 1 else (0,):
        rows: Dict[Tuple[int, ...], List[It]] = {}
        for place, chunk in entries:
            row = (place[0] // count,) if count else place[: len(dims) - 1]
            rows.setdefault(row, []).append(chunk)
        if (count, len(rows)) not in seen:
            seen.add((count, len(rows)))
            yield from (it for it in rows.values() if len(it) > 1)


def rows_across(parts: Sequence[bytes], width: int) -> bytes:
    """The rows that lie across these chunks, each of which has so many bytes of each."""
    count, step = min(map(len, parts)) // width, width * len(parts)
    made = bytearray(count * step)
    for number, data in enumerate(parts):
        begin = number * width
        if count <= width:
            for at in range(0, count * width, width):
                place = at * len(parts) + begin
                made[place : place + width] = data[at : at + width]
        else:
            for byte in range(width):
                made[begin + byte :: step] = data[byte : count * width : width]
    return bytes(made)

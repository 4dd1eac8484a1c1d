"""Values of HDF5 that are in other files, or put together of other datasets, which isn't done here.
"""

from __future__ import annotations

import re
from typing import Iterator, Tuple

from .budget import LOOKED_AT, Budget
from .source import BLOCK, Source

_MAPPED = re.compile(rb"[\4\5]\x03(?=.{6}\0\0)", re.DOTALL)
_OUTSIDE = re.compile(rb"\x01\0{3}(?!\0\0)..(?!\0\0)..", re.DOTALL)
_LINKED = re.compile(rb"\x01[\x08-\x1f]\x40")
"""Messages on a virtual dataset, on values in other files, and on a link to another file."""
_UNPLACED = re.compile(rb"[\3-\5]\x01\xff{4}")
"""A message on a layout whose values have no place in the file."""
_LONGEST = 1 << 12
"""More bytes than these have."""
_ORDERED, _CODED = 4, 16
"""Flags of a link: it has the order in which it was made, and the coding of its name."""


def elsewhere_in(source: Source, start: int, width: int, budget: Budget) -> Iterator[str]:
    """What of the file is elsewhere, whose first block is at an offset and whose addresses have so
    many bytes.
    """

    def leads_to(block: bytes, at: int, begun: bytes) -> bool:
        """Whether there is the address of what begins so."""
        budget.spend()
        address = int.from_bytes(block[at : at + width], "little")
        return address < source.size and source.read(start + address, len(begun)) == begun

    is_unplaced = any(_UNPLACED.search(block) for block in _blocks(source))
    for block in _blocks(source):
        budget.spend(1 + len(block) // LOOKED_AT)
        if any(_is_link(block, it.start()) for it in _LINKED.finditer(block)):
            yield "links lead to datasets in other files"
        if any(leads_to(block, it.end(), b"GCOL") for it in _MAPPED.finditer(block)):
            yield "virtual datasets put values together of parts of others"
        if is_unplaced and any(
            leads_to(block, it.end(), b"HEAP") for it in _OUTSIDE.finditer(block)
        ):
            yield "its values are in other files"


def _blocks(source: Source) -> Iterator[bytes]:
    """The source block by block, each with some bytes of the next one."""
    for at in range(0, source.size, BLOCK):
        yield source.read(at, BLOCK + _LONGEST)


def _is_link(block: bytes, at: int) -> bool:
    """Whether a link to a dataset in another file is there, as each writer writes it."""
    flags = block[at + 1]
    at += 3 + (8 if flags & _ORDERED else 0) + (1 if flags & _CODED else 0)
    width = 1 << (flags & 3)
    name, end = _counted(block, at, width)
    target, _ = _counted(block, end, 2)
    parts = target[1:].split(b"\0")
    is_printed = all(it >= 32 for it in name + b"".join(parts))
    return is_printed and target[:1] == b"\0" and len(parts) == 3 and all(parts[:2]) and bool(name)


def _counted(block: bytes, at: int, width: int) -> Tuple[bytes, int]:
    """Bytes behind their number, and where they end."""
    end = at + width + int.from_bytes(block[at : at + width], "little")
    return block[at + width : end], end

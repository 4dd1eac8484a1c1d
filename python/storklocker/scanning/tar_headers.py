"""Headers of tar files as most programs write them, about which all readers agree. `tarfile` takes
longer for each than to check what it holds.
"""

from __future__ import annotations

import re
import zlib
from typing import Iterator, NamedTuple

from .places import METADATA, PART, PLACES, VALUES
from .source import BLOCK, Source

HEADER = 512
_WINDOW = 1 << 18
"""So many bytes are read at once."""
_NAME, _NUMBERS, _LINK, _MAGIC, _DEVICE = 100, 157, 257, 265, 329
"""Where the name, the numbers and the type, the link's name, the magic, and the owner's and group's
names end.
"""
_PREFIX, _NO_LINK = 345, bytes(100)
_PLAIN = re.compile(rb"(?:[0-7]{7}\0){3}([0-7]{11})\0[0-7]{11}\0([0-7]{6})\0 0")
"""Mode, user, group, size, time, checksum and type of a file."""
_MAGICS, _DEVICES = (b"ustar\x0000", b"ustar  \0"), (bytes(16), b"0000000\0" * 2)
_REST = bytes(HEADER - _PREFIX)
_NAMED = re.compile(rb"[!-~]{1,100}")
_PLACES = (VALUES.encode(), PLACES.encode(), PART.encode(), METADATA.encode())
"""Names of members that others are about."""
_HALF, _SPACES = 256, 8 * ord(" ")
"""So many bytes add up to less than what Adler-32 divides by."""


class Plain(NamedTuple):
    """A member that is a small file, with a header on which all readers agree."""

    name: str
    at: int
    """Where its content begins."""
    size: int

    @property
    def end(self) -> int:
        """Where the next header is."""
        return self.at + -(-self.size // HEADER) * HEADER


def plain_members(source: Source, at: int) -> Iterator[Plain]:
    """The members from a place on, up to the first that isn't plain or leaves the file."""
    data, base = b"", 0
    while True:
        if not 0 <= at - base <= len(data) - HEADER:
            data, base = source.read(at, _WINDOW), at
        header = data[at - base : at - base + HEADER]
        found = _PLAIN.match(header, _NAME)
        if found is None or header[_NUMBERS:_LINK] != _NO_LINK:
            return
        if header[_LINK:_MAGIC] not in _MAGICS or header[_DEVICE:_PREFIX] not in _DEVICES:
            return
        size, total = found.groups()
        name, end = header[:_NAME].rstrip(b"\0"), at + HEADER + int(size, 8)
        if header[_PREFIX:] != _REST or int(total, 8) != _checksum(header) or end > source.size:
            return
        if end - at > BLOCK or not _NAMED.fullmatch(name) or name.lower().endswith(_PLACES):
            return
        member = Plain(name.decode("ascii"), at + HEADER, end - at - HEADER)
        yield member
        at = member.end


def _checksum(header: bytes) -> int:
    """The sum of the bytes, with spaces for those of the checksum."""
    total = 0
    for half in (header[:_HALF], header[_HALF:]):
        total += (zlib.adler32(half) & 0xFFFF) - 1
    return total - sum(header[148:156]) + _SPACES

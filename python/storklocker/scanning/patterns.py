"""Patterns of the first bytes of what is looked for in large files, which one call looks for all at
once: `re` passes over the bytes once for each pattern.
"""

from __future__ import annotations

import array
from typing import List, Sequence, Tuple

Front = Tuple[bytes, ...]
"""The bytes that may be at each place of a pattern."""

ANY, NUL = bytes(range(256)), b"\0"
LETTER = b"ABCDEFGHIJKLMNOPQRSTUVWXYZabcdefghijklmnopqrstuvwxyz_"
_GROUP, _ENDED = 16, 256


def masks_of(*groups: Sequence[Front]) -> bytes:
    """What `begun` takes for at most four groups of patterns."""
    fronts: List[Front] = [()] * (_GROUP * len(groups))
    for number, those in enumerate(groups):
        assert len(those) <= _GROUP
        fronts[_GROUP * number : _GROUP * number + len(those)] = those
    found = array.array("Q")
    for place in range(max(map(len, fronts))):
        here = [(1 << bit, it[place]) for bit, it in enumerate(fronts) if len(it) > place]
        ended = sum(1 << bit for bit, it in enumerate(fronts) if 0 < len(it) <= place)
        row = [ended + sum(bit for bit, its in here if its is ANY)] * _ENDED
        for bit, its in here:
            for byte in its if its is not ANY else b"":
                row[byte] |= bit
        found.extend([*row, ended])
    return found.tobytes()


def fronts_of(text: bytes) -> Front:
    """A pattern of these bytes alone."""
    return tuple(bytes([byte]) for byte in text)


def class_of(those: bytes) -> bytes:
    """A regular expression for one of these bytes."""
    return b"." if those is ANY else b"[%b]" % b"".join(b"\\x%02x" % byte for byte in those)

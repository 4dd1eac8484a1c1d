"""An object elsewhere that is fetched in blocks, each once: all readers get the same bytes."""

from __future__ import annotations

import io
import os
import tempfile
from typing import Any, BinaryIO, Callable, Set, cast

BLOCK = 1 << 22
"""How many bytes are fetched at once."""

Fetch = Callable[[int, int], bytes]
"""Gives the bytes from one offset up to another."""


def in_blocks(size: int, fetch: Fetch, front: bytes = b"") -> BinaryIO:
    """The object of so many bytes, the first block of which may be there already."""
    front = front or _exactly(fetch, 0, min(size, BLOCK))
    if size <= BLOCK:
        return io.BytesIO(front)
    return cast(BinaryIO, _Blocks(size, fetch, front))


def _exactly(fetch: Fetch, start: int, end: int) -> bytes:
    data = fetch(start, end) if end > start else b""
    if len(data) != end - start:
        place = f"at byte {start + min(len(data), end - start):,}"
        raise OSError(f"{len(data):,} bytes came where {end - start:,} were to come, {place}")
    return data


class _Blocks(io.RawIOBase):
    """The blocks that were fetched, in a temporary file."""

    def __init__(self, size: int, fetch: Fetch, front: bytes) -> None:
        self._size, self._fetch, self._at = size, fetch, 0
        self._kept = tempfile.TemporaryFile()
        self._kept.write(front)
        self._numbers: Set[int] = {0}

    def readable(self) -> bool:
        return True

    def seekable(self) -> bool:
        return True

    def seek(self, offset: int, whence: int = os.SEEK_SET) -> int:
        self._at = offset + {os.SEEK_SET: 0, os.SEEK_CUR: self._at, os.SEEK_END: self._size}[whence]
        return self._at

    def tell(self) -> int:
        return self._at

    def readinto(self, room: Any) -> int:
        end = max(self._at, min(self._at + len(room), self._size))
        for number in range(self._at // BLOCK, -(-end // BLOCK)):
            if number not in self._numbers:
                self._add(number)
        self._kept.seek(self._at)
        data = self._kept.read(end - self._at)
        room[: len(data)] = data
        self._at += len(data)
        return len(data)

    def _add(self, number: int) -> None:
        start = number * BLOCK
        data = _exactly(self._fetch, start, min(start + BLOCK, self._size))
        self._kept.seek(start)
        self._kept.write(data)
        self._numbers.add(number)

    def close(self) -> None:
        self._kept.close()
        super().close()

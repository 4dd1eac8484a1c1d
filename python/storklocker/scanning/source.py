"""Bytes that several readers look at, each from any place and as often as it likes."""

from __future__ import annotations

import bisect
import io
import itertools
import os
import stat
from typing import Any, BinaryIO, List, Tuple

from .budget import UNPACKED, TooMuch

BLOCK = 1 << 16
"""How many bytes are read at once where the number doesn't matter."""


_numbers = itertools.count(1)


class Source:
    """A file, a part of one, or bytes that were unpacked into memory. Reading past its end gives
    fewer bytes, or none.
    """

    def __init__(
        self, file: BinaryIO, start: int, size: int, number: int = 0, front: bytes = b""
    ) -> None:
        self._file, self._start, self.size = file, start, size
        self._number = number or next(_numbers)
        self._front = front
        self._held, self._held_at = b"", 0

    def place(self, at: int) -> Tuple[int, int]:
        """A place of the file that it is a part of: the number of that file, and the offset."""
        return self._number, self._start + at

    def read(self, at: int, count: int) -> bytes:
        """The bytes from a place on."""
        count = min(count, self.size - at)
        if count <= 0:
            return b""
        if at + count <= len(self._front):
            return self._front[at : at + count]
        start = at - self._held_at
        if 0 <= start <= len(self._held) - count:
            return self._held[start : start + count]
        self._file.seek(self._start + at)
        return self._file.read(count)

    def hold(self, at: int, count: int) -> bytes:
        """The bytes from a place on, which are at hand for later reads."""
        self._held, self._held_at = self.read(at, count), at
        return self._held

    def fill(self, at: int, room: memoryview) -> bool:
        """Fills a buffer with the bytes from a place on; False if there are fewer."""
        self._file.seek(self._start + at)
        while len(room):
            read: int = self._file.readinto(room)  # type: ignore[attr-defined]
            if not read:
                return False
            room = room[read:]
        return True

    def front(self) -> bytes:
        """The first bytes, at most `BLOCK`."""
        if not self._front:
            self._front = self.read(0, BLOCK)
        return self._front

    def part(self, start: int, size: int) -> "Source":
        """A part of it, which ends where it ends."""
        start = min(start, self.size)
        size = max(0, min(size, self.size - start))
        end = start + size
        front = self._front[start:end] if end <= len(self._front) else b""
        return Source(self._file, self._start + start, size, self._number, front)

    def opened(self) -> BinaryIO:
        """A file that begins and ends where it does."""
        return io.BufferedReader(_Window(self))


class _Window(io.RawIOBase):
    """A source as a file."""

    def __init__(self, source: Source) -> None:
        self._source, self._at = source, 0

    def readable(self) -> bool:
        return True

    def seekable(self) -> bool:
        return True

    def seek(self, offset: int, whence: int = os.SEEK_SET) -> int:
        base = {os.SEEK_SET: 0, os.SEEK_CUR: self._at, os.SEEK_END: self._source.size}[whence]
        if base + offset < 0:
            raise OSError("a place before the first byte")
        self._at = base + offset
        return self._at

    def tell(self) -> int:
        return self._at

    def readinto(self, room: Any) -> int:
        data = self._source.read(self._at, len(room))
        room[: len(data)] = data
        self._at += len(data)
        return len(data)


class _Joined(io.RawIOBase):
    """Parts of a source as one file."""

    def __init__(self, source: Source, parts: List[Tuple[int, int]]) -> None:
        self._source, self._parts, self._at = source, parts, 0
        self._ends = list(itertools.accumulate(size for _, size in parts))

    def seek(self, offset: int, whence: int = os.SEEK_SET) -> int:
        self._at = offset
        return offset

    def readinto(self, room: Any) -> int:
        done = 0
        number = bisect.bisect_right(self._ends, self._at)
        while done < len(room) and number < len(self._parts):
            (start, size), left = self._parts[number], self._ends[number] - self._at
            data = self._source.read(start + size - left, min(left, len(room) - done))
            if not data:
                break
            room[done : done + len(data)] = data
            done, self._at = done + len(data), self._at + len(data)
            number += self._at == self._ends[number]
        return done


def joined(source: Source, parts: List[Tuple[int, int]]) -> Source:
    """Parts of a source, each an offset and a size, as one."""
    if len(parts) == 1:
        return source.part(*parts[0])
    whole: Any = _Joined(source, parts)
    return Source(whole, 0, sum(size for _, size in parts))


def in_memory(data: io.BytesIO) -> Source:
    """The source of bytes in memory, with no copy."""
    return Source(data, 0, data.seek(0, os.SEEK_END))


def whole_of(descriptor: int) -> bytes:
    """All bytes of a file with at most `BLOCK`; none if it has more, is no such file, or changes.
    The descriptor stays at the first byte.
    """
    try:
        size = os.lseek(descriptor, 0, os.SEEK_END)  # (`fstat` takes three times as long)
        os.lseek(descriptor, 0, os.SEEK_SET)
        data = os.pread(descriptor, size + 1, 0) if size <= BLOCK else b""
    except OSError:  # a pipe, or what the caller meets again
        return b""
    return data if len(data) == size else b""


def source_of(file: BinaryIO) -> Source:
    """The source of a file. One that can't seek is read into memory."""
    found = None
    if isinstance(file, io.FileIO):
        found = os.fstat(file.fileno())
        if stat.S_ISREG(found.st_mode) and 0 < found.st_size <= BLOCK:
            front = file.read(found.st_size)
            if len(front) == found.st_size:
                return Source(file, 0, found.st_size, front=front)
            file.seek(0)  # a read may give less
        file = io.BufferedReader(file)
    elif file.seekable():
        try:
            found = os.fstat(file.fileno())
        except OSError:  # a file in memory
            return Source(file, 0, file.seek(0, os.SEEK_END))
    if found is not None and stat.S_ISREG(found.st_mode) and found.st_size:
        return Source(file, 0, found.st_size)
    held, left = io.BytesIO(), UNPACKED
    while left >= 0:
        data = file.read(1 << 20)
        if not data:
            return in_memory(held)
        left -= held.write(data)
    raise TooMuch(f"it has more than {UNPACKED:,} bytes, and comes from a pipe")

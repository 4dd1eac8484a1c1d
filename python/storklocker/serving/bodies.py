"""The bytes of a request. They are in a file in memory, which a worker opens by its path."""

from __future__ import annotations

import os
from pathlib import Path

FRONT = 1 << 14
"""From so many bytes on, and each time that they have doubled, a worker looks at the front."""


class TooLarge(Exception):
    """A body has more bytes than one may have."""


class NoRoom(Exception):
    """All bodies together have more bytes than there is room for."""


class Room:
    """How many bytes all bodies may have, and each."""

    def __init__(self, each: int, together: int) -> None:
        self.each, self._left = each, together

    def take(self, count: int) -> None:
        """Takes room for so many bytes. Raises NoRoom."""
        if count > self._left:
            raise NoRoom
        self._left -= count

    def give(self, count: int) -> None:
        """Gives room back."""
        self._left += count


class Body:
    """The bytes of a request so far. Used as a context, at whose end they are gone."""

    def __init__(self, room: Room) -> None:
        self._room, self.size = room, 0
        self._next = FRONT
        self._file = os.memfd_create("body", os.MFD_CLOEXEC)
        self.path = Path(f"/proc/{os.getpid()}/fd/{self._file}")

    def __enter__(self) -> "Body":
        return self

    def __exit__(self, *_: object) -> None:
        os.close(self._file)
        self._room.give(self.size)

    def add(self, data: bytes) -> None:
        """Adds bytes. Raises TooLarge and NoRoom."""
        if self.size + len(data) > self._room.each:
            raise TooLarge
        self._room.take(len(data))
        self.size += len(data)
        view = memoryview(data)
        while view:
            view = view[os.write(self._file, view) :]

    def is_due(self) -> bool:
        """Whether to look at the front, which has doubled since the last time."""
        if self.size < self._next:
            return False
        self._next = 2 * self.size
        return True

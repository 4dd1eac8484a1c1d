"""How much is read of one file: a hostile one must not cost more than it is worth."""

from __future__ import annotations

from typing import TYPE_CHECKING, Optional, Set, Tuple

if TYPE_CHECKING:
    from .lone import Lone
    from .report import Pair

DEPTH = 4
"""The most containers inside one another."""
MEMBERS = 20_000
"""The most members of a file that are read; of a large one, one for `_MEMBER_BYTES` bytes."""
PICKLES = 100_000
"""The most pickles of a file that are looked at one by one; of a large one, one for `_PICKLE_BYTES`
bytes.
"""
_MEMBER_BYTES, _PICKLE_BYTES = 64, 16
PROBED, RATIO, UNPACKED = 1 << 26, 100, 1 << 30
"""A file may unpack to `PROBED` bytes, or to `RATIO` times its size if that is more, but not to
more than `UNPACKED` bytes.
"""
NAMES, NAME_BYTES = 500, 1 << 15
"""The most names of a file that are reported, and their bytes, beside those for its size."""
STEPS = 1_000_000
"""The steps that a file may take, beside those for its size. A step is about what a microsecond is
enough for. The clock is never asked: what is said of a file depends on the file alone.
"""
STEP = 10
"""The steps of what is done for each value, page or line."""
LOOKED_AT = 64
"""So many bytes are looked at in one step."""

_ROW, _ROW_RATIO = 1 << 23, 16
_NAMES_PER, _BYTES_PER = 1 << 13, 1 << 4
_LARGE, _LATER = 1 << 26, 4
"""A file has three steps for four of its bytes, and behind `_LARGE` bytes one for `_LATER`."""


class TooMuch(Exception):
    """A file holds more than is read of one file."""


class Budget:
    """What may still be spent on a file. Each method raises TooMuch when there is no more."""

    def __init__(self, size: int) -> None:
        self._bytes = self._room = min(UNPACKED, max(PROBED, RATIO * size))
        self._members = self._most_members = max(MEMBERS, size // _MEMBER_BYTES)
        self._pickles = self._most_pickles = max(PICKLES, size // _PICKLE_BYTES)
        self.names = NAMES + size // _NAMES_PER
        self.name_bytes = NAME_BYTES + size // _BYTES_PER
        self._steps = self._all = STEPS
        self.grow(size)
        self._told: Set[Pair] = set()
        self.lone: Optional[Lone] = None
        """Tells of values that are one small pickle each."""
        self.row_bytes = _ROW + _ROW_RATIO * size
        """The most bytes of a row that are checked in one call, which nothing interrupts."""
        self.reports = 0
        """The number of reports on this file so far."""
        self.zips: Set[Tuple[int, int, int]] = set()
        """The directories of the zip files that were read: the file, the place, and the place from
        which they count.
        """
        self.calls = STEPS // 20
        """The steps that are left for what pickles call, which is told as far as they go."""
        self.shelves: Set[Tuple[int, int]] = set()
        """The places of shelves, each of whose values is read."""

    def grow(self, size: int) -> None:
        """Adds the steps for so many bytes more than the file has."""
        more = 3 * min(size, _LARGE) // 4 + max(0, size - _LARGE) // _LATER
        self._steps += more
        self._all += more

    def spend(self, steps: int = STEP) -> None:
        """Counts steps."""
        self._steps -= steps
        if self._steps < 0:
            raise TooMuch(f"it takes more than {self._all:,} steps: the rest was not read")

    def spend_bytes(self, count: int) -> None:
        """Counts bytes that were unpacked."""
        self._bytes -= count
        if self._bytes < 0:
            times = "" if self._room == UNPACKED else f", more than {RATIO} times its size"
            raise TooMuch(f"it unpacks to more than {self._room:,} bytes{times}")
        self.spend(1 + count // LOOKED_AT)

    def spend_member(self) -> None:
        """Counts a member of a container."""
        self._members -= 1
        if self._members < 0:
            most = self._most_members
            raise TooMuch(f"it has more than {most:,} members: the rest was not read")
        self.spend()

    def has_members(self, count: int) -> bool:
        """Whether so many members of a container may still be read."""
        return count <= self._members

    def spend_members(self, count: int) -> None:
        """Counts members of a container that are read together."""
        self._members -= count
        self.spend(count * STEP // 2)

    def spend_pickle(self, size: int = 0) -> None:
        """Counts a pickle of a row, of which so many bytes are looked at."""
        self._pickles -= 1
        if self._pickles < 0:
            most = self._most_pickles
            raise TooMuch(f"it has more than {most:,} pickles: the rest was not read")
        self.spend(2 * STEP + size // LOOKED_AT)

    def spend_name(self, pair: Pair) -> bool:
        """Counts a name that is reported, once; False if there is no room for it."""
        if pair in self._told:
            return True
        length = len(pair[0] or "") + len(pair[1] or "")
        if self.names < 1 or self.name_bytes < length:
            return False
        self.names -= 1
        self.name_bytes -= length
        self._told.add(pair)
        return True

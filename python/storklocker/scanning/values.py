"""Values of a store that are plain pickles, which are told together: to tell of each takes long."""

from __future__ import annotations

import itertools
from typing import Dict, Iterator, List, Optional, Sequence, Tuple

from .._lists import AllowList
from .._pairs import bytes_of_pair
from .batches import SIZES, Batches
from .budget import LOOKED_AT, STEP
from .lone import Told
from .marks import plainly_named, unmarked_of
from .readings import Found, Place, Together, examine
from .report import LONGEST
from .rows import CLAIM
from .source import BLOCK

_FEW = 64
"""So many are told one by one."""
_MOST = 100
"""Values that differ in imports more often than this are told one by one."""


class Values:
    """The values of a store."""

    last: int
    """The length of the last one that is told later."""

    def __init__(self, place: Place, kind: str, sizes: Tuple[int, int] = SIZES) -> None:
        self._place, self._kind, self._budget = place, kind, place.budget
        self._lone = place.budget.lone
        self._seen = self._count = self._size = self._imports = self.last = 0
        self._told: Dict[int, Told] = {}
        self._listed: Optional[AllowList] = None
        self.batches = Batches(*sizes)
        """Those in which values are looked at."""

    @property
    def is_begun(self) -> bool:
        """Whether some are told later, so that more may be by one call."""
        return self._count > 0

    def quiet_of(self, data: bytes, begins: List[int], ends: List[int]) -> Tuple[int, int]:
        """How many of the first of these parts are plain pickles with imports that others had, and
        nothing else; and how many imports these make.
        """
        if self._lone is None or not self._count or len(self._told) > _MOST:
            return 0, 0
        if self._listed is None:
            pairs = {pair for told in self._told.values() for pair in told.imports}
            names = [bytes_of_pair((module or "", name or "")) for module, name in pairs]
            self._listed = AllowList.of_encoded(names, None, None)
        self._budget.spend(STEP // 2 + (sum(ends) - sum(begins)) // LOOKED_AT)
        found = self._lone.quiet_of(data, begins, ends, self._listed)
        self._budget.spend(STEP // 2 * found[0] + self._lone.spent())
        return found

    def count(self, number: int, size: int, imports: int) -> None:
        """Counts values that are told later: so many, of so many bytes, with so many imports."""
        self._imports += imports
        self._seen += number
        self._count += number
        self._size += size

    def are_taken(self, data: bytes, begins: List[int], ends: List[int]) -> bool:
        """Whether all of these parts are plain pickles with imports that others had, and nothing
        else. They are told later.
        """
        count, imports = self.quiet_of(data, begins, ends)
        if count < len(begins):
            return False
        self.count(count, sum(ends) - sum(begins), imports)
        return True

    def taken_of(
        self, names: Sequence[str], data: bytes, begins: List[int], ends: List[int]
    ) -> int:
        """How many of the first of these parts, in members with these names, are plain pickles, and
        nothing else, of which no other reader has to be asked. They are told later.
        """
        if not self._count:
            return 0
        most = plainly_named(names, LONGEST)
        claims = map(CLAIM.match, itertools.repeat(data), begins[:most], ends)
        most = next((number for number, claim in enumerate(claims) if not claim), most)
        most = unmarked_of(data, begins[:most], ends[:most])
        begins, ends = begins[:most], ends[:most]
        count, imports = self.quiet_of(data, begins, ends) if most else (0, 0)
        self.count(count, sum(ends[:count]) - sum(begins[:count]), imports)
        return count

    def taken(self, data: bytes) -> int:
        """The length of the plain pickle at the front of the bytes, which is told later; 0 if there
        is none, or it is to be told by itself.
        """
        if self._lone is None or not CLAIM.match(data):
            return 0
        self._seen += 1
        if self._seen <= _FEW:
            return 0
        size, told = self._lone.told_of_value(data)
        self._budget.spend(STEP // 2 + size // LOOKED_AT + self._lone.spent())
        return self._kept(size, told) if told is not None else 0

    def is_taken(self, place: Place) -> bool:
        """Whether a member is a plain pickle, and nothing else, which is told later."""
        source = place.source
        if self._lone is None or source.size > BLOCK or place.is_raw or place.is_cut:
            return False
        self._seen += 1
        if self._seen <= _FEW:
            return False
        data = source.front()
        told = self._lone.told(place.path, data)
        self._budget.spend(STEP + len(data) // LOOKED_AT)
        is_quiet = told is not None and self._lone.is_quiet(told, data)
        self._budget.spend(self._lone.spent())
        if told is None or not is_quiet:
            return False
        return self._kept(source.size, told) > 0

    def _kept(self, size: int, told: Told) -> int:
        if id(told) not in self._told:
            self._told[id(told)] = told
            self._listed = None
        self._count += 1
        self._size += size
        self._imports += told.made
        self.last = size
        return size

    def member(self, place: Place) -> Found:
        """What is in a member, unless it is told later."""
        if self.is_taken(place):
            return True
        return (yield from examine(place))

    def told(self) -> Iterator[Together]:
        """What is to be told of the values that were not told one by one."""
        if self._count:
            told = tuple(self._told.values())
            path = f"{self._place.path}!the rest"
            yield Together(path, self._kind, self._count, self._size, self._imports, told)

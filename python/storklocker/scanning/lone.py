"""Files that are one small pickle, whose imports are permitted and which costs little: most are."""

from __future__ import annotations

import functools
import io
from typing import TYPE_CHECKING, List, NamedTuple, Optional, Set, Tuple, Union

from .._checking import check_row
from .._lists import AllowList, settings_of, within
from .._pairs import records
from .._storklocker import imports, joined, whole
from .costs import with_costs
from .dangers import import_findings
from .joblib_files import WRAPPER_NAMES
from .marks import is_plain
from .names import NOTHING, limits_under, named_today, pair_of
from .readings import Asked
from .report import LONGEST, Finding, Pair, sorted_findings
from .rows import CLAIM, limits_costs, may_be_listed
from .severity import MILD
from .source import BLOCK, in_memory

if TYPE_CHECKING:
    from . import called, foreseeing

_ROOM = LONGEST
"""The most bytes of encoded imports that are told of here."""
_KEPT = 1 << 17
"""So many hashes are kept."""


class Told(NamedTuple):
    """What a report tells of such a file."""

    imports: Tuple[Pair, ...]
    """Each once."""
    findings: Tuple[Finding, ...]
    made: int
    """How many imports it makes."""


class Lone:
    """Tells of such files, under a list or under none, in one call of the checker. What it tells is
    what all the readings and a `Row` tell, which take longer.
    """

    def __init__(self, allow: Optional[AllowList], asked: Asked) -> None:
        self._asked = asked
        self.allow, listed = allow, NOTHING if allow is None else allow
        self._is_limited = limits_costs(listed)
        self._look: Union[foreseeing.Look, called.Look, None] = None
        self._unfound: Set[int] = set()
        """The hashes of values of which its look finds nothing."""
        limits = within(limits_under(allow, BLOCK), listed.limits)
        assert limits is not None
        # (whatever the list says of BUILD, what an import answers is not to be changed)
        self._limits = with_costs(limits)
        self._settings = settings_of(NOTHING, self._limits, "unknown")
        # (the files of a scan mostly import the same names)
        self._known = functools.lru_cache(maxsize=256)(self._judged)

    def told(self, path: str, data: bytes) -> Optional[Told]:
        """What is to be told of a file that is these bytes, at most `BLOCK`; None if it isn't known
        to be such a file.
        """
        if self._is_limited or not CLAIM.match(data):
            return None
        if not is_plain(path, data) and len(self._asked(path, in_memory(io.BytesIO(data)))) > 1:
            return None  # others than that of pickles
        verdict, wanted, room = imports(data, NOTHING, self._settings, _ROOM)
        if verdict.taken != len(data) or wanted > _ROOM:
            return None
        return self._known(room[:wanted], data[:2])

    def told_of_value(self, data: bytes) -> Tuple[int, Optional[Told]]:
        """The length of the pickle at the front of these bytes, and what is to be told of it; 0 and
        None if more than its imports is to be told, or one of them does harm.
        """
        if self._is_limited:
            return 0, None
        verdict, wanted, room = imports(data, NOTHING, self._settings, _ROOM)
        told = self._known(room[:wanted], data[:2]) if verdict and wanted <= _ROOM else None
        if told is None or not self.is_quiet(told, data[: verdict.taken]):
            return 0, None
        return verdict.taken, told

    def quiet_of(
        self, data: bytes, begins: List[int], ends: List[int], listed: AllowList
    ) -> Tuple[int, int]:
        """How many of the first of these parts are each a pickle and nothing else, of which no more
        is to be told than that it imports what is listed, as `told_of_value` finds it, by few
        calls; and how many imports these make.
        """
        count = 0 if self._is_limited else whole(data, begins, ends)
        has_looked = not len(listed)
        while count:
            row = joined(data, begins[:count], ends[:count])
            found, most = check_row(row, listed, limits=self._limits), count
            count = min(found.pickles, most - (not found))
            if not len(listed):  # (so that those that are accepted import nothing)
                return count, 0
            if found and not has_looked:
                its = [data[at:end] for at, end in zip(begins[:count], ends)]
                count, has_looked = self._first_found(its), True
            if found and count == most:
                return count, found.imports
        return 0, 0

    def _first_found(self, values: List[bytes]) -> int:
        """The index of the first of which its look finds anything; their number if there is none.
        """
        look, unfound, number = self._looked(), self._unfound, 0
        if len(unfound) > _KEPT:
            unfound.clear()
        while number < len(values):
            number = look.unfound(values, number)
            for data in values[number : number + 1]:
                # (pages have copies of what they had)
                if hash(data) not in unfound and look.finds(data):
                    return number
                unfound.add(hash(data))
                number += 1
        return number

    def is_quiet(self, told: Told, data: bytes) -> bool:
        """Whether nothing in a pickle of which this is told is known to do harm, and a guard with
        the list loads it; without a list, whether it calls nothing that it has made.
        """
        if any(it.severity not in MILD for it in told.findings):
            return False
        return not told.imports or not self._looked().finds(data)

    def spent(self) -> int:
        """The steps that its looks have taken since it was last asked."""
        return 0 if self._look is None else self._look.spent()

    def foresight(self) -> foreseeing.Look:
        """The look at what a guard with the list does."""
        from . import foreseeing  # most scans have no need of it

        assert self.allow is not None
        if self._look is None:
            self._look = foreseeing.Look(self.allow)
        assert isinstance(self._look, foreseeing.Look)
        return self._look

    def _looked(self) -> Union[foreseeing.Look, called.Look]:
        if self.allow is not None:
            return self.foresight()
        if self._look is None:
            from . import called  # most scans have no need of it

            self._look = called.Look()
        return self._look

    def _judged(self, room: bytes, front: bytes) -> Optional[Told]:
        """What is to be told of these encoded imports of a pickle that begins so; None if one isn't
        permitted, or is an array of joblib's.
        """
        made = tuple(named_today(records(room), front))
        names = tuple(dict.fromkeys(made))
        is_permitted = may_be_listed if self.allow is None else self.allow.permits
        if not all(map(is_permitted, names)) or WRAPPER_NAMES.intersection(names):
            return None
        pairs = tuple(map(pair_of, names))
        return Told(pairs, sorted_findings(import_findings(pairs, self.allow)), len(made))


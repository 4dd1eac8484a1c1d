"""Reads a pickle, or pickles that follow one another, up to the first that is refused."""

from __future__ import annotations

import io
import itertools
import re
from typing import TYPE_CHECKING, Dict, Iterable, Optional, Tuple

from .._answers import RowVerdict, Verdict
from .._checking import check, check_row
from .._limits import without_costs
from .._lists import AllowList, settings_of
from .._reasons import Reason
from .._storklocker import walked
from .budget import LOOKED_AT, STEP, Budget, TooMuch
from .costs import COUNTED, KINDS, LIMITS, Exceeded, exceeded, exceeded_in_row, with_costs
from .dangers import may_be_imported
from .kept import NOTHING as KEEPS_NOTHING
from .kept import apart_in, kept_in, stream_in
from .names import NOTHING, WIDEST, Imports, imports_within, limits_under
from .names import named_today, refused_with
from .reaching import READERS_STOP, reached
from .readings import Piece
from .recognized import is_text
from .source import in_memory

if TYPE_CHECKING:
    from .._limits import Limits
    from .._pairs import Names

_FIRST = 1 << 14
"""The size of the first window; it grows sixteenfold until it contains the whole pickle."""
_WHOLE = 1 << 26
"""The most bytes of a file that the third window of its first pickle contains at once, and of a row
that is checked in one call.
"""
_ONE_BY_ONE = 1000
"""How many pickles of a row are looked at one by one, before the rest is tried in one call."""
_AT_ONCE = 1 << 16
"""How many bytes of small pickles are looked at for costs by one call: a call for each would take
as long as all the rest.
"""
CLAIM = re.compile(rb"\x80[\x02-\x05]")
"""How pickles of protocol 2 and later begin. Those of 0 and 1 have no PROTO, but fonts have it."""
_IMPORTING = (Reason.ImportOffList, Reason.UnknownImport, Reason.ExtensionCode)


class Row:
    """The pickles that follow one another in a piece.

    names: what they would import, each pair once; for the refused one, the imports in front of the
        place where it is refused, and the first behind it that a reader may get to.
    is_complete: whether these are all.
    refusal: the verdict on the first that is refused, with its offset in the piece.
    number: the index of that one, counted from 0.
    costly: why a guard refuses the first that it refuses whatever is listed.
    costly_at, costly_number: the offset of that one in the piece, and its index.
    pickles, taken, imports: the number of accepted pickles, their length in bytes, and how many
        imports they make.
    is_reached: whether a reader may get to an import or to STOP in the refused one.
    stop: the offset in the piece at which every reader stops in the refused one, perhaps behind the
        import that is there; -1 if one may go on.
    is_cut: whether it stops there because the bytes end.
    is_misread: whether a reader reads other bytes than are shown.
    refused: the bytes of the refused one, and its offset.
    too_much: why the rest was not read.
    source: the bytes of the pickles; if one Pickler has written them, as one pickle.
    sources: those with these pickles, one behind another; of joblib's files also those of arrays of
        objects.
    raw: why arrays that stand between the instructions could not be left out.
    kept: what one Unpickler imports that loads them all. It is among the names.
    """

    is_complete, is_reached, is_cut, is_misread = True, False, False, False
    refusal: Optional[Verdict] = None
    costly: Optional[Exceeded] = None
    costly_at = costly_number = 0
    number = pickles = taken = imports = stop = 0
    refused: Tuple[bytes, int] = (b"", 0)
    too_much: Optional[TooMuch] = None
    raw, kept = "", KEEPS_NOTHING
    _uncosted: Tuple[int, int] = (0, 0)  # the offset and index from which on to look
    _try_at = _ONE_BY_ONE

    def __init__(
        self, piece: Piece, allow: Optional[AllowList], budget: Budget, are_apart: bool = False
    ) -> None:
        self._piece, self.source, self._budget = piece, piece.source, budget
        self._are_apart = are_apart
        self._allow, self._listed = allow, NOTHING if allow is None else allow
        self._is_limited = limits_costs(self._listed)
        self.names: Dict["Names", None] = {}
        self._recent: Dict["Names", None] = {}  # what the pickles import from there on
        try:
            while self._is_more() and self._is_next_accepted():
                pass
            if not self._is_stream():
                self._look_at_kept()
        except TooMuch as error:
            self.too_much = error
        self.sources = [self.source]
        self._find_costly()

    def _is_more(self) -> bool:
        """Whether another pickle is to be read one by one."""
        if self.pickles == self._piece.most > 0:
            return False
        if self.taken and self.taken >= self.source.size:
            return False
        if self.pickles == self._try_at and not self._piece.most:
            self._try_at *= 2  # (a try takes as long as there are bytes left)
            return not self._are_all_accepted()
        return True

    def _is_next_accepted(self) -> bool:
        """Reads the next pickle. Returns whether another may follow it."""
        data, found, is_within = self._next()
        verdict = found.verdict
        self._budget.spend_pickle(max(verdict.taken, verdict.at))
        is_whole = bool(verdict) and verdict.taken == self.source.size
        if is_whole and is_within and self._is_lone(data, found):
            return False
        if self._goes_on_behind(found):
            self.taken += verdict.at + 1
            self._uncosted = (self.taken, self.pickles)
            return True
        names = found.names
        if not verdict:
            names = dict.fromkeys((*names, *self._refused(verdict, found)))
        self.is_complete &= found.is_complete
        is_listed = found.is_complete and all(map(self._listed.permits, names))
        is_listed = is_listed and is_within and not self._is_limited
        if not (verdict and is_listed) and self.refusal is None:
            self._judge(data, verdict)
        self._look_at_costs(data, found, names)
        self.names.update(names)
        if not verdict:
            return False
        self.pickles += 1
        self.taken += verdict.taken
        self.imports += verdict.imports
        return True

    def _is_lone(self, data: bytes, found: Imports) -> bool:
        """Whether all is one small pickle, as most files are, whose imports the list permits. Notes
        what is known of it.
        """
        taken, names = found.verdict.taken, found.names
        if taken >= _AT_ONCE or not found.is_complete or self._is_limited:
            return False
        if not all(map(may_be_listed if self._allow is None else self._allow.permits, names)):
            return False
        self.names, self.pickles, self.taken = dict(names), 1, taken
        self.imports = found.verdict.imports
        self._uncosted = (taken, 1)
        self._find_costly_in(data, names, 0, 0)
        return True

    def _look_at_costs(self, data: bytes, found: Imports, names: Dict["Names", None]) -> None:
        """Looks at what the next pickle costs, or leaves it for later if it is a small one, all of
        whose imports a list can permit: another would end the look at many.
        """
        verdict = found.verdict
        is_listable = found.is_complete and all(map(may_be_listed, names))
        if verdict and verdict.taken < _AT_ONCE and is_listable:
            if self.taken - self._uncosted[0] > _AT_ONCE:
                self._find_costly()
            self._recent.update(names)
            return
        self._find_costly()
        if self.costly is None:
            self.costly = exceeded(data, names)
            self.costly_at, self.costly_number = self.taken, self.pickles
        self._uncosted = (self.taken + verdict.taken, self.pickles + 1)

    def _find_costly(self) -> None:
        """Looks at what the small pickles cost that were accepted since the last look."""
        (at, number), names = self._uncosted, self._recent
        self._uncosted, self._recent = (self.taken, self.pickles), {}
        if self.costly is not None or at >= self.taken:
            return
        self._find_costly_in(self.source.read(at, self.taken - at), names, at, number)

    def _find_costly_in(self, data: bytes, names: Iterable["Names"], at: int, number: int) -> None:
        """Looks at what these accepted pickles cost, which begin at an offset, with an index."""
        found = exceeded_in_row(data, names)
        if found is not None:
            self.costly, behind, index = found
            self.costly_at, self.costly_number = at + behind, number + index

    def _look_at_kept(self) -> None:
        """Looks at what one Unpickler imports that loads all, unless that is one, or there is no
        name that could be another.
        """
        is_refused = self.refusal is not None
        if self.pickles + is_refused > 1 and (self.names or is_refused):
            end = self.source.size if is_refused else self.taken
            limits = limits_under(None, end)  # (other Unpicklers have no limits)
            self.kept = kept_in(self.source, end, self.names, limits, self._budget)
            self.names.update(dict.fromkeys(self.kept.names))

    def _is_stream(self) -> bool:
        """Whether one Pickler has written all, which keeps its memo, so that a pickle by itself is
        broken. Notes what is known of them.
        """
        no, size = self.refusal, self.source.size
        if no is None or not self.pickles or self._piece.most or self._are_apart:
            return False
        may_be_other = no.reason in READERS_STOP or no.reason in _IMPORTING
        if not may_be_other or size > min(_WHOLE, self._budget.row_bytes):
            return False
        stream = stream_in(self.source.read(0, size), self.limits(size), self._allow, self._budget)
        if stream is None:
            return False
        apart = apart_in(self.source, self.taken, self.names, stream, self._budget)
        if self._allow is not None and not all(map(self._allow.permits, apart)):
            return False
        self.names = dict.fromkeys((*stream.names, *apart))
        self.source = in_memory(io.BytesIO(stream.joined))
        self.refusal, self.is_reached, self.is_cut = None, False, False
        self.number, self.imports = stream.verdict.pickles, stream.verdict.imports
        if stream.verdict:
            self.pickles, self.taken = stream.verdict.pickles, size
        else:
            begin = stream.begins[self.number]
            self.refusal = Verdict._make(stream.verdict)
            self.refused = (stream.joined[begin:], begin)
        self.costly, self.costly_at, self.costly_number = exceeded(stream.joined, self.names), 0, 0
        self._uncosted = (size, self.pickles)
        return True

    def _goes_on_behind(self, found: Imports) -> bool:
        """Whether all readers end in a text, with one of several objects and no import."""
        end = self.taken + found.verdict.at + 1
        return (
            found.verdict.reason is Reason.LeftOver
            and not (self._piece.is_claimed or self.pickles or found.names)
            and end < self.source.size
            and is_text(self.source.front())
        )

    def _next(self) -> Tuple[bytes, Imports, bool]:
        """The bytes of the next pickle, perhaps more, its imports with each permitted, and whether
        it keeps within the limits.
        """
        window, is_within, listed = _FIRST, True, self._listed
        while True:
            data = self.source.read(self.taken, window)
            found = imports_within(data, listed, self.limits(len(data)) if is_within else WIDEST)
            if found.verdict.reason is Reason.Truncated and len(data) == window:
                window = self._wider(window)
            elif found.verdict or self._allow is None or not is_within:
                return data, found, is_within
            else:  # if only the limits refuse it, report its imports anyway
                is_within, listed = False, NOTHING

    def limits(self, size: int) -> Limits:
        """The limits that hold for so many bytes, but for those on costs."""
        return limits_under(self._allow, size)

    def _wider(self, window: int) -> int:
        """The next window. For the first pickle of a file, the third one is the whole file, because
        most files contain one pickle, and each window costs a check.
        """
        whole = self.source.size if self.pickles == 0 and window > _FIRST else 0
        return max(16 * window, whole if whole <= _WHOLE else 0)

    def _refused(self, verdict: Verdict, found: Imports) -> Tuple["Names", ...]:
        """What a reader may import at the place where a pickle is refused, or behind it."""
        begin = self.taken
        beyond = reached(self.source, begin, begin + verdict.at, verdict.reason, self._budget)
        is_beyond = beyond.is_reached_in(self.source.size)
        names = refused_with(verdict.reason) if is_beyond or self._piece.is_claimed else ()
        self.is_reached = bool(found.names) or bool(names) or is_beyond
        is_stopped = verdict.reason in READERS_STOP and not beyond.is_misread
        self.stop = begin + verdict.at if is_stopped else beyond.end
        if beyond.is_ended or not beyond.is_complete:
            self.stop = -1
        self.is_cut = verdict.reason is Reason.Truncated
        self.is_misread |= beyond.is_misread
        front = self.source.read(begin, 2)
        return (*names, *named_today(beyond.names, front))

    def guarded(self) -> Optional[Verdict]:
        """Why a guard with the list refuses the one that costs much; None if it doesn't."""
        if self.costly is None or self._allow is None:
            return None
        data = self.source.read(self.costly_at, self.source.size - self.costly_at)
        found = check(data, self._allow)
        return None if found else found._replace(at=self.costly_at + found.at)

    def forget_impossible(self) -> None:
        """Leaves out the names from the first on that no module has: a reader stops there."""
        for place, (module, name) in enumerate(self.names):
            if module is None or name is None:
                continue
            texts = (it.decode("utf-8", "replace") for it in (module, name))
            if not may_be_imported(*texts):
                self.names = dict.fromkeys(itertools.islice(self.names, place))
                self.is_reached = False
                if not place and self.costly and self.costly.verdict.reason is Reason.BuildsImport:
                    self.costly = None  # nothing is imported that BUILD could change
                return

    def _judge(self, data: bytes, found: Verdict) -> None:
        """Keeps the first refusal under the list; without one, the one with every import permitted.
        """
        under, limits = found, self.limits(len(data))
        if self._allow is not None:
            under = check(data, self._allow, limits=limits, build="any")
        if not under:
            self.number, self.refused = self.pickles, (data, self.taken)
            self.refusal = under._replace(at=self.taken + under.at)
            self.is_reached |= under.reason in COUNTED  # a reader gets on if it has the time

    def _are_all_accepted(self) -> bool:
        """Whether all pickles that are left import nothing new and cost little, by one call. So a
        long row takes little time. Of another one those in front of the first that isn't so are
        taken, and that is looked at by itself.
        """
        self._find_costly()
        left = self.source.size - self.taken
        if left > min(_WHOLE, self._budget.row_bytes):
            return False
        self._budget.spend(STEP + left // LOOKED_AT)
        data = self.source.read(self.taken, left)
        verdict = self._checked(data)
        if not verdict and verdict.pickles > _ONE_BY_ONE:
            verdict = self._checked(data[: walked(data, 0, verdict.pickles)[0]])
        if not verdict:
            return False
        self.pickles += verdict.pickles
        self.taken += verdict.taken
        self.imports += verdict.imports
        self._uncosted = (self.taken, self.pickles)
        self._try_at = max(self._try_at, self.pickles + _ONE_BY_ONE)
        return verdict.taken == left

    def _checked(self, data: bytes) -> RowVerdict:
        """The answer to pickles that may import what was imported, and may cost little."""
        names = [(module, name) for module, name in self.names if module is not None and name]
        under = NOTHING if self._allow is None else self._allow
        allow = AllowList.of_encoded(names, under.limits, under.build)
        limits, costs = self.limits(len(data)), self.costly is None
        asked = with_costs(limits) if costs else limits
        verdict = check_row(data, allow, limits=asked, build="made" if costs else "any")
        if verdict.reason in KINDS and costs:
            self._find_costly_in(data, names, self.taken, self.pickles)
            verdict = check_row(data, allow, limits=limits, build="any")
        return verdict


def may_be_listed(names: "Names") -> bool:
    """Whether a list may have these names."""
    return bool(names[1])


def limits_costs(allow: AllowList) -> bool:
    """Whether the list limits what loading costs."""
    if allow.limits is None and allow.build is None:
        return False
    under = settings_of(allow, WIDEST, "unknown", "any")
    return without_costs(under) != under


def row_of(
    piece: Piece, allow: Optional[AllowList], budget: Budget, are_apart: bool = False
) -> Optional[Row]:
    """The row, if the bytes claim to be a pickle, or a reader may get to an import or to the end of
    each. They are apart if no memo is kept for the next pickle.
    """
    front = piece.source.front()
    is_claimed = piece.is_claimed or CLAIM.match(front) is not None
    if not is_claimed and not _may_be_pickle(piece, front, budget):
        return None
    row = Row(piece._replace(is_claimed=is_claimed), allow, budget, are_apart)
    if not is_claimed and row.refusal is None and not row.pickles:
        return None
    if not is_claimed and row.refusal is not None and not row.is_misread:
        row.forget_impossible()
    is_reached = bool(row.names) or row.is_reached or not row.is_complete or row.costly is not None
    return row if is_claimed or row.refusal is None or is_reached else None


def _may_be_pickle(piece: Piece, front: bytes, budget: Budget) -> bool:
    verdict = check(front, NOTHING, limits=LIMITS)
    if verdict or verdict.reason in _IMPORTING or verdict.reason in KINDS:
        return True
    beyond = reached(piece.source, 0, verdict.at, verdict.reason, budget)
    return beyond.is_reached_in(piece.source.size)

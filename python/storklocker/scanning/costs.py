"""What a guard refuses by default, whatever is listed: a pickle whose keys cost its reader too
much, or whose BUILD changes what it imports.
"""

from __future__ import annotations

import functools
from typing import TYPE_CHECKING, Iterable, NamedTuple, Optional, Tuple

from .. import _cost_words as words
from .._answers import Verdict
from .._limits import COSTS, FURTHEST, Limits
from .._lists import STANDARD, AllowList, settings_of
from .._names import old_names
from .._pairs import bytes_of_pair
from .._reasons import Reason
from .._storklocker import bill, row_verdict, verdict, walked
from .names import NOTHING, WIDEST
from .report import Finding

if TYPE_CHECKING:
    from .._pairs import Names

def with_costs(limits: Limits) -> Limits:
    """The limits, and on what loading costs the default ones."""
    return limits._replace(**{name: getattr(STANDARD, name) for name in COSTS})


LIMITS = with_costs(WIDEST)
"""Limits on costs alone: where a reader must stop, whatever it has room for, or may never stop."""
COUNTED = (Reason.DeepKey, Reason.HeavyKeys, Reason.ManyKeys, Reason.MuchMemory)
"""The reasons by which a list may refuse what costs too much."""
KINDS = {Reason[name]: kind for name, kind in words.KINDS.items()}
"""The kinds of findings, by the reason for which a guard refuses the pickle."""

_SETTINGS = settings_of(NOTHING, LIMITS, "unknown")
_COUNTING = settings_of(NOTHING, WIDEST._replace(memory=(1 << 64) - 2), "unknown", "any")
"""Settings under which costs are counted, and none is too much."""
_WEIGHING = settings_of(NOTHING, LIMITS._replace(work=None), "unknown")
_SMALL = 512
"""The most bytes of names whose list is kept."""


class Exceeded(NamedTuple):
    """Why a guard refuses a pickle whatever is listed: the verdict, and what loading it costs."""

    verdict: Verdict
    why: str
    bill: str
    """Empty if it isn't known, because the pickle is broken behind that place."""


def exceeded(data: bytes, names: Iterable[Names]) -> Optional[Exceeded]:
    """Why a guard refuses the pickle at the front of the bytes, whose imports are these, whatever
    is listed; None if it doesn't.
    """
    allow = permitting(names)
    found = verdict(data, allow, None)
    if found.reason not in KINDS:
        return None
    why = words.WHY[found.reason.name]
    if found.reason is Reason.HeavyKeys and verdict(data, allow, _WEIGHING).at != found.at:
        why = words.ALL
    is_costly = KINDS[found.reason] == words.COSTLY
    return Exceeded(found, why, _bill_under(allow, data) if is_costly else "")


def exceeded_in_row(data: bytes, names: Iterable[Names]) -> Optional[Tuple[Exceeded, int, int]]:
    """Why a guard refuses the first of these pickles that it refuses whatever is listed, its offset
    and its index; None if there is none, or another one is refused before it.
    """
    found = row_verdict(data, permitting(names), None)
    if found.reason not in KINDS:
        return None
    at = 0
    for _ in range(found.pickles):
        at, _ = walked(data, at)
    first = exceeded(data[at:], names)
    return None if first is None else (first, at, found.pickles)


def permitting(names: Iterable[Names]) -> AllowList:
    """The list of these names, with limits on costs alone."""
    pairs = tuple((module, name) for module, name in names if module is not None and name)
    is_small = sum(len(module) + len(name) for module, name in pairs) <= _SMALL
    return _permitting_few(pairs) if is_small else _permitting_all(pairs)


def _permitting_all(pairs: Tuple[Tuple[bytes, bytes], ...]) -> AllowList:
    """The list of these names, however a pickle spells them."""
    texts = [(module.decode("utf-8", "replace"), name.decode("utf-8", "replace"))
             for module, name in pairs]
    old = [bytes_of_pair(it) for pair in texts for it in old_names(pair)]
    return AllowList.of_encoded([*pairs, *old], None, None, _SETTINGS)


# (the files of a scan mostly import the same names)
_permitting_few = functools.lru_cache(maxsize=256)(_permitting_all)


def bill_of(data: bytes, names: Iterable[Names]) -> str:
    """What loading the pickle at the front of the bytes costs, whose imports are these; empty if it
    isn't known.
    """
    return _bill_under(permitting(names), data)


def _bill_under(allow: AllowList, data: bytes) -> str:
    costs = bill(data, allow, _COUNTING)
    if costs is None:
        return ""
    levels, weight, work, _, _ = costs
    deeper, more = "+" * (levels == FURTHEST["levels"]), "+" * (weight == FURTHEST["weight"])
    return words.BILL.format(levels=levels, weight=weight, work=work, deeper=deeper, more=more)


def cost_finding(found: Exceeded, start: int, number: int) -> Finding:
    """The finding on the pickle that begins at an offset, and has this index in a row."""
    reason = found.verdict.reason
    assert reason is not None
    why = found.why.format(at=start + found.verdict.at, **LIMITS._asdict()) + found.bill
    return Finding(KINDS[reason], f"in pickle {number}, {why}" if number else why)

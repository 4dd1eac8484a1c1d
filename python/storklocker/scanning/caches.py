"""Files of caches, in which a value stands behind the time at which it ends."""

from __future__ import annotations

import zlib
from typing import TYPE_CHECKING, Iterable

from .._reasons import Reason
from .blocks import is_harmful_pair
from .budget import Budget
from .reaching import followed_from
from .marks import TIME
from .names import NOTHING, WIDEST, imports_within, named_today, verdict_at
from .readings import Found, Place
from .source import BLOCK, Source
from .spelled import LENGTHS
from .stores import imports_at, is_value

if TYPE_CHECKING:
    from .._pairs import Names

_PICKLED = 64
"""More bytes than Django's pickle of a time has."""
_GLOBAL = ord("c")
_NEVER = (b"", b"P", b"Q")
"""No value, or one that cachelib stops at: an object that is kept elsewhere."""


def cachelib_reading(place: Place) -> Found:
    """What cachelib gets to. The bytes in front say nothing: the file may be another one, too."""
    source = place.source
    value = source.part(TIME, source.size)
    if place.is_raw or value.read(0, 1) in _NEVER:
        return False
    if is_value(value, place.budget) and not _is_inside(source, place.budget):
        yield place.piece("cachelib", TIME, True, 1)
    return False


def _is_inside(source: Source, budget: Budget) -> bool:
    """Whether the value is the rest of a pickle at the first byte, or another one behind it, and
    imports nothing that isn't seen from there.
    """
    front, at = source.read(0, TIME), 0
    while at < TIME and front[at] != _GLOBAL:
        length = LENGTHS.get(front[at], -1)
        if length < 0:
            return False
        at += 1 + length
    whole = imports_at(source, 0, budget)
    if at < TIME:  # (it begins within the line of a module)
        found = followed_from(source, TIME)
        budget.spend(found.steps)
        is_harm = any(map(is_harmful_pair, found.names)) or not found.names
        is_known = found.is_complete and not is_harm
        return is_known and all(_is_end_of(it, whole.names) for it in found.names)
    inner = dict.fromkeys(named_today(imports_at(source, TIME, budget).names, front))
    is_behind = whole.verdict.taken == TIME
    return at == TIME and (is_behind or inner.keys() <= whole.names.keys())


def _is_end_of(names: Names, others: Iterable[Names]) -> bool:
    """Whether this is what is left of another name, whose module begins in front of it."""
    module, name = names
    ends = (it for it, other in others if name == other and it is not None)
    return module is not None and any(it.endswith(module) for it in ends)


def packed_behind(source: Source, budget: Budget) -> int:
    """Where the packed value begins in a file of Django's, behind the pickle of a time; else 0."""
    at = _length(source, budget)
    if not 0 < at < source.size:
        return 0
    try:
        zlib.decompressobj().decompress(source.read(at, BLOCK), 1)
    except zlib.error:
        return 0
    return at


def _length(source: Source, budget: Budget) -> int:
    """The length of the pickle at the front, if it imports nothing. It is a short one, or has no
    PROTO, without which nobody claims what stands behind it.
    """
    front = source.front()[:_PICKLED]
    if front[:1] == b"\x80" and b"." not in front:
        return 0  # it doesn't end there
    found = imports_within(front, NOTHING, WIDEST)
    verdict, has_imports = found.verdict, bool(found.names)
    is_cut = verdict.reason is Reason.Truncated and len(front) < source.size
    if is_cut and not has_imports and front[:1] != b"\x80":
        verdict, has_imports = verdict_at(source, 0, budget)
    if has_imports:
        return 0
    # readers take one of several objects
    return verdict.at + 1 if verdict.reason is Reason.LeftOver else verdict.taken

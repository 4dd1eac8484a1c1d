"""The imports of a pickle, also of one that is refused, within bounds."""

from __future__ import annotations

import functools
from typing import TYPE_CHECKING, Dict, Iterable, NamedTuple, Optional, Tuple

from .._answers import Verdict
from .._limits import NO_COSTS, UNBOUND, Limits, without_costs
from .._lists import STANDARD, AllowList, settings_of
from .._names import RENAMED, are_old, renamed
from .._pairs import records
from .._reasons import Reason
from .._storklocker import imports as _imports
from .budget import LOOKED_AT, STEP, Budget
from .report import Pair
from .source import BLOCK, Source

if TYPE_CHECKING:
    from .._pairs import Names

NOTHING = AllowList(())
WIDE = Limits(passed=1 << 40, **NO_COSTS)
"""The limits under a list that has none: those of a guard, but for payloads that are passed over,
which may have any length.
"""
WIDEST = Limits(passed=1 << 40, numbers=UNBOUND, large=True, **NO_COSTS)
"""Under a list with limits, just these."""
_ROOM = 1 << 22
"""The least bytes of names that are taken from a pickle; for a larger pickle, its size."""
_FIRST, _FEW = 4096, 512


def limits_under(allow: Optional[AllowList], size: int) -> Limits:
    """The limits of a scan of so many bytes. Without a list, only a memo number may be too large:
    no pickler writes one that is greater than the bytes in front of it.
    """
    if allow is not None:
        return WIDE if allow.limits is None else WIDEST
    return _with_numbers(max(size, STANDARD.numbers))


@functools.lru_cache(maxsize=64)
def _with_numbers(most: int) -> Limits:
    return WIDEST._replace(numbers=most)


# (the files of a scan mostly import the same names)
@functools.lru_cache(maxsize=256)
def _few_of(room: bytes) -> Tuple[Names, ...]:
    return tuple(records(room))


def pair_of(both: Names) -> Pair:
    """Both names as texts."""
    module, name = both
    if module is None or name is None:
        return (None, None)
    return (module.decode("utf-8", "replace"), name.decode("utf-8", "replace"))


class Imports(NamedTuple):
    """The verdict on a pickle with every import permitted, and its imports, each once; of a refused
    one, those of the instructions in front of the place where it is refused.
    """

    verdict: Verdict
    names: Dict[Names, None]
    is_complete: bool = True
    """Whether these are all; otherwise they would take more bytes than are taken."""
    size: int = 0
    """The bytes of all imports, each as often as it is made."""


def imports_within(data: bytes, allow: AllowList, limits: Limits = WIDE) -> Imports:
    """The imports of the pickle at the front of the bytes. The limits of the list apply."""
    settings, size = without_costs(settings_of(allow, limits, "unknown")), _FIRST
    verdict, wanted, room = _imports(data, allow, settings, size)
    if wanted > max(_ROOM, len(data)):
        return Imports(verdict, {}, False)
    if wanted > size:
        verdict, wanted, room = _imports(data, allow, settings, wanted)
    its = records(room[:wanted]) if wanted > _FEW else _few_of(room[:wanted])
    return Imports(verdict, dict.fromkeys(named_today(its, data)), size=wanted)


def verdict_on(data: bytes) -> Verdict:
    """The verdict on the pickle at the front, as `imports_within` finds it, which takes far longer
    to list many imports.
    """
    settings = without_costs(settings_of(NOTHING, WIDE, "unknown"))
    return _imports(data, NOTHING, settings, _FIRST)[0]


def named_today(names: Iterable[Names], data: bytes) -> Iterable[Names]:
    """The imports of the pickle that begins the bytes, as Python 3 names them."""
    return map(_renamed, names) if are_old(data) else names


@functools.lru_cache(maxsize=1024)
def _renamed(names: Names) -> Names:
    module, name = pair_of(names)
    if module is None or name is None or module not in RENAMED:
        return names
    new = renamed((module, name))
    return (new[0].encode(), new[1].encode())


def verdict_at(source: Source, at: int, budget: Budget) -> Tuple[Verdict, bool]:
    """The verdict on the pickle at an offset with every import permitted, however long it is, and
    whether it imports anything.
    """
    settings, size = without_costs(settings_of(NOTHING, WIDEST, "unknown")), BLOCK
    while True:
        # (to list many imports takes longer than to find them)
        verdict, wanted, _ = _imports(source.read(at, size), NOTHING, settings, _FIRST)
        budget.spend(STEP + min(size, source.size - at) // LOOKED_AT)
        if verdict.reason is not Reason.Truncated or size >= source.size - at:
            return verdict, wanted > 0
        size *= 16


def length_at(source: Source, at: int, budget: Budget) -> int:
    """The length of the pickle at an offset; 0 if no list makes it acceptable."""
    return verdict_at(source, at, budget)[0].taken


def refused_with(reason: Optional[Reason]) -> Tuple[Names, ...]:
    """The import of an instruction that is refused for this reason: of one that is registered."""
    return ((None, None),) if reason is Reason.ExtensionCode else ()

"""Says once of the names on a guard's list which of them nobody has judged."""

from __future__ import annotations

import sys
from typing import Any, List, Set, Tuple

from ._lists import AllowList
from ._meant import of, require

_MOST, _SHOWN = 1000, 5
"""The most lists that are remembered as told of, and names that are shown."""
_told: Set[Tuple[Any, ...]] = set()


def look_at(allow: AllowList) -> None:
    """Raises ValueError for a list that permits everything. Logs the names that nobody has judged,
    if anyone hears that: to find them takes longer than to make a guard.
    """
    require(allow)
    logging = sys.modules.get("logging")
    if logging is None or not len(allow):
        return
    log = logging.getLogger("storklocker")
    if log.isEnabledFor(logging.INFO):
        unknown = _unjudged(allow)
        key = tuple(unknown)
        if unknown and key not in _told and len(_told) < _MOST:
            _told.add(key)
            log.info(_said(unknown))


def _unjudged(allow: AllowList) -> List[str]:
    from .scanning.dangers import judged  # (reading its table takes a while)

    held = of(allow)
    said = held.substitutes.keys() | held.dangerous
    pairs = (pair for pair in allow.for_loading() if pair not in said)
    return [".".join(pair) for pair in pairs if judged(*pair) is None]


def _said(unknown: List[str]) -> str:
    more = f" and {len(unknown) - _SHOWN:,} more" if len(unknown) > _SHOWN else ""
    names = "names" if len(unknown) > 1 else "name"
    return (f"A guard's list has {len(unknown):,} {names} that nobody has judged:"
            f" {', '.join(unknown[:_SHOWN])}{more}. `storklocker judge` tries what they do.")

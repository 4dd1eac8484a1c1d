"""The imports of a report, as far as there is room for them, and what is to be said of them."""

from __future__ import annotations

import functools
import itertools
from typing import TYPE_CHECKING, Dict, List, Optional, Tuple

from .._lists import AllowList
from .budget import NAMES, Budget
from .dangers import import_findings
from .names import pair_of
from .report import LONGEST, Finding, Pair
from .rows import Row

if TYPE_CHECKING:
    from .._pairs import Names

_SHORT = LONGEST
"""The most bytes of all names of a pickle whose texts are kept."""

_Told = Tuple[Tuple[Pair, ...], Tuple[Pair, ...], List[Finding]]


def told_names(row: Row, allow: Optional[AllowList], budget: Budget, is_text: bool) -> _Told:
    """The imports of a report, those off the list, and what is to be said of them."""
    length = sum(len(module or b"") + len(name or b"") for module, name in row.names)
    if row.refusal is None and length <= _SHORT:
        pairs, is_harmless = _texts_of(tuple(row.names))
        if all(map(budget.spend_name, pairs)):
            return pairs, (), [] if is_harmless else import_findings(pairs, allow, is_text)
    imports, missing = _shown_names(row, allow, budget)
    return imports, missing, import_findings(map(pair_of, row.names), allow, is_text)


# (the files of a scan mostly import the same names)
@functools.lru_cache(maxsize=1024)
def _texts_of(names: Tuple["Names", ...]) -> Tuple[Tuple[Pair, ...], bool]:
    """These names as pairs of texts, and whether all are known to be harmless."""
    pairs = tuple(map(pair_of, names))
    return pairs, not import_findings(pairs)


def _shown_names(
    row: Row, allow: Optional[AllowList], budget: Budget
) -> Tuple[Tuple[Pair, ...], Tuple[Pair, ...]]:
    """The imports, and those off the list, as far as there is room for them: the latter first."""
    def is_off(both: "Names") -> bool:
        return allow is not None and not allow.permits(both)

    kept: Dict["Names", Pair] = {}
    off = () if allow is None or row.refusal is None else filter(is_off, row.names)
    for both in itertools.chain(off, row.names):
        if budget.names < 1 and len(row.names) > NAMES:
            break  # a hostile file has very many
        pair = _text_of(both[0]), _text_of(both[1])
        if both not in kept and budget.spend_name(pair):
            kept[both] = pair
    if not off:
        return tuple(kept.values()), ()
    imports = tuple(kept[both] for both in row.names if both in kept)
    return imports, tuple(kept[both] for both in row.names if both in kept and is_off(both))


def _text_of(name: Optional[bytes]) -> Optional[str]:
    """A name, cut if it is very long."""
    if name is None:
        return None
    text = name.decode("utf-8", "replace")
    return text if len(text) <= LONGEST else f"{text[:LONGEST]}... and {len(text) - LONGEST} more"


def forget_names() -> None:
    """Forgets what was said of names, under another table of dangers."""
    _texts_of.cache_clear()

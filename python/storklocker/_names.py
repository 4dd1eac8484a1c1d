"""How CPython maps the names of Python 2 to those of Python 3, from its own tables."""

import _compat_pickle as tables
import functools
import sys

TYPE_CHECKING = False
if TYPE_CHECKING:
    from typing import Container, Dict, Iterator, List, Tuple

    Pair = Tuple[str, str]

RENAMED = frozenset(module for module, _ in tables.NAME_MAPPING).union(tables.IMPORT_MAPPING)
"""The modules of Python 2 with at least one name that Python 3 has moved."""


def are_old(data: bytes) -> bool:
    """Whether the first instruction of a pickle implies protocol 0, 1 or 2."""
    return data[:1] != b"\x80" or data[1:2] < b"\x03"


def renamed(pair: "Pair") -> "Pair":
    """The pair that CPython imports for this one from a pickle of protocol 0 to 2, with
    `fix_imports`.
    """
    if pair in tables.NAME_MAPPING:
        new: Pair = tables.NAME_MAPPING[pair]
        return new
    return (tables.IMPORT_MAPPING.get(pair[0], pair[0]), pair[1])


def today(pair: "Pair") -> "Pair":
    """The name that a list means: that of Python 3 if only Python 2 has a module of this name."""
    return renamed(pair) if is_lost(pair) else pair


def modules_of(module: str) -> "List[str]":
    """The modules of Python 3 that have the names of one of Python 2."""
    moved = [new for (old, _), (new, _) in tables.NAME_MAPPING.items() if old == module]
    return [*moved, tables.IMPORT_MAPPING.get(module, module)]


@functools.lru_cache(maxsize=None)
def _backwards() -> "Tuple[Dict[Pair, List[Pair]], Dict[str, List[str]]]":
    """The two tables, inverted."""
    pairs: Dict[Pair, List[Pair]] = {}
    for old, new in tables.NAME_MAPPING.items():
        pairs.setdefault(new, []).append(old)
    modules: Dict[str, List[str]] = {}
    for module, become in tables.IMPORT_MAPPING.items():
        modules.setdefault(become, []).append(module)
    return pairs, modules


def old_names(pair: "Pair") -> "Iterator[Pair]":
    """Each pair that `renamed` maps to this one."""
    pairs, modules = _backwards()
    yield from pairs.get(pair, ())
    for module in (pair[0], *modules.get(pair[0], ())):
        if renamed((module, pair[1])) == pair and (module, pair[1]) not in tables.NAME_MAPPING:
            yield (module, pair[1])


def hint_of(pair: "Pair", allow: "Container[Pair]", fixes: bool) -> str:
    """The hint for a refused pair that Python 3 has renamed, and whether it is read under its new
    name.
    """
    new = renamed(pair) if pair[0] in RENAMED else pair
    if new == pair or not (new in allow or pair in allow):
        return ""
    named = ".".join(new)
    if fixes:
        return "" if new in allow else f"Python 3 calls it {named}; list that name"
    listed = "which is listed" if new in allow else "which must be listed"
    return f"Python 3 calls it {named}, {listed}: fix_imports=True"


def is_lost(pair: "Pair") -> bool:
    """Whether Python 3 has renamed the pair, and this Python has no module with the old name."""
    if renamed(pair) == pair:
        return False
    from importlib.util import find_spec

    top = pair[0].partition(".")[0]
    return sys.modules.get(top) is None and find_spec(top) is None

"""What a list says beside its names: substitutes, and dangerous names that are meant."""

from __future__ import annotations

from typing import (
    TYPE_CHECKING, Any, Dict, FrozenSet, Iterable, Iterator, Mapping, NamedTuple, Tuple
)

from ._facts import EVERYTHING as _NAMES
from ._names import today
from ._substitute import Substitute

if TYPE_CHECKING:
    from ._lists import AllowList

Pair = Tuple[str, str]

EVERYTHING = frozenset((module, name) for module in _NAMES for name in _NAMES[module].split())
"""Names that permit everything, or that call any listed name in ways that a pickle can't."""


class Meant(NamedTuple):
    """What a list says of some of its names."""

    substitutes: Dict[Pair, Substitute]
    dangerous: FrozenSet[Pair]


def meant_of(allow: AllowList, substitutes: Mapping[Any, Any], dangerous: Iterable[Any]) -> Meant:
    """What was said of the names of a list. Raises ValueError for a name that isn't listed."""
    made = Meant({_pair(it): substitutes[it] for it in substitutes}, frozenset(_pairs(dangerous)))
    for pair in (*made.substitutes, *made.dangerous):
        if pair not in allow:
            raise ValueError(f"{'.'.join(pair)} isn't on the list")
    for pair, substitute in made.substitutes.items():
        if not isinstance(substitute, Substitute):
            raise TypeError(f"the substitute for {'.'.join(pair)} must be made by substitutes")
    return made


def _pairs(given: Iterable[Any]) -> Iterator[Pair]:
    if isinstance(given, str):
        raise TypeError("dangerous must be a list of names, not a str")
    return map(_pair, given)


def _pair(given: Any) -> Pair:
    """A pair that is given as such, or as a dotted name: `a.b`, or `a:b.c` if the name has dots."""
    if isinstance(given, str):
        module, _, name = given.partition(":") if ":" in given else given.rpartition(".")
        return (module, name)
    module, name = given
    return (module, name)


def both(one: AllowList, other: AllowList) -> Meant:
    """What the union of two lists says. The substitutes for a name become one, which permits what
    either does. Raises ValueError if there is none.
    """
    from .substitutes import both as both_of  # few lists declare any

    mine, its = of(one), of(other)
    said = {**mine.substitutes, **its.substitutes}
    for pair in mine.substitutes.keys() & its.substitutes.keys():
        made = both_of(mine.substitutes[pair], its.substitutes[pair])
        if made is None:
            raise ValueError(f"the lists have two substitutes for {'.'.join(pair)}")
        said[pair] = made
    return Meant(said, mine.dangerous | its.dangerous)


def of(allow: AllowList) -> Meant:
    """What a list says of its names."""
    return allow.meant or Meant({}, frozenset())


def require(allow: AllowList) -> None:
    """Raises ValueError for a name that permits everything, unless it has a substitute or is said
    to be meant.
    """
    held = of(allow)
    said = {today(pair) for pair in (*held.substitutes, *held.dangerous)}
    listed = allow.for_loading()
    for pair in sorted(EVERYTHING - said - held.substitutes.keys() - held.dangerous):
        if pair in listed or pair in allow:
            name = ".".join(pair)
            raise ValueError(
                f"{name} on the list permits everything: give it one of storklocker.substitutes, "
                f"or confirm it: AllowList(.., dangerous=[{name!r}])"
            )

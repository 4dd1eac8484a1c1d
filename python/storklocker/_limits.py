"""The limits of a check."""

import functools
import operator
import struct

from ._answers import Named

TYPE_CHECKING = False
if TYPE_CHECKING:
    from typing import Any, Dict, Optional, Tuple

UNBOUND = (1 << 32) - 1
"""The greatest memo number, and the greatest limit for large data."""

_USUAL: "Any" = ...
"""In place of a limit: its default, which depends on `large`."""

OLD_STRINGS = ("unknown", "ascii", "bytes")
"""How Python 2 strings may be decoded; the index is the number in storklocker.h."""

_SETTINGS = struct.Struct("=6Q4I2I3Q2I")

_MOST = (1 << 64) - 1
COSTS = {
    "levels": (1_000, UNBOUND),
    "weight": (1_000_000, UNBOUND),
    "work": (100_000_000, _MOST),
    "clash": (None, _MOST),
    "memory": (None, _MOST),
}
"""The limits on what loading costs, each with its default and the number that stands for none in
storklocker.h.
"""
MOST_SAID = {name: min(most, (1 << 63) - 1) for name, (_, most) in COSTS.items()}
"""The numbers that stand for none in a list file: the greatest that each may have there."""
FURTHEST = {"levels": 1_023, "weight": 1_048_575}
"""As far as levels and weights are counted: no key exceeds a limit of as many."""
NO_COSTS: "Dict[str, Any]" = dict.fromkeys(COSTS)
"""The words that ask `Limits` for no limit on what loading costs."""
BUILDS = ("made", "any")
"""What BUILD may take; the index is the number in storklocker.h."""


class Limits(Named):
    """The limits of a check. Immutable.

        >>> limits = storklocker.Limits(levels=2)
        >>> deep = b"})\\x85\\x85\\x85Ns."           # {((((),),),): None}
        >>> str(storklocker.check(deep, storklocker.AllowList([]), limits=limits))
        'no at 6: DeepKey'

    A limit above its greatest value means that value; of `levels` or `weight` it is a ValueError.

    counted: bytes in the payload of an argument with a length; default and greatest 16,777,216.
    stack: stack entries, marks included; default and greatest 1,000,000.
    memo: memo entries; default and greatest 1,000,000.
    passed: bytes in a byte payload, which is skipped; default 16,777,216, greatest
        1,099,511,627,776.
    numbers: the greatest memo number; default 1,000,000, greatest 4,294,967,295. CPython allocates
        16 bytes for each number up to the greatest one used, so 7 bytes of a pickle could make the
        loading process allocate 64 GB.
    large: as `large = true` in a list file, makes 4,294,967,295 the default and the greatest value
        of counted, stack and memo.

    The others limit the cost of loading a pickle, whatever its objects do; None turns a limit off.
    They concern keys: those of dicts, and the items of sets. An object weighs 1. An int that is
    written in digits or bytes weighs an eighth of their number more, a text or bytes a 64th of its
    bytes more, and a tuple or frozenset the weights of its items more. The result of a call weighs
    what a tuple of the callable and its arguments would, since it may hold them. An imported object
    weighs 1.

    A check with such limits takes a tenth to a half longer. It takes twice as long or more if
    memory is limited, if more than about ten tuples hold other tuples or earlier objects, if there
    are more than about fifteen calls, or if there is a BUILD under `build="made"`.
    `Limits(levels=None, weight=None, work=None)` turns these limits off. Pass it once, to the list
    or to the guard: if one of the two is at its default, the other applies; otherwise the smaller
    does.

    levels: levels of tuples and results in a key, since each takes C stack to hash; default 1,000,
        greatest 1,022.
    weight: the weight of a key; default 1,000,000, greatest 1,048,574. A heavier key adds 1,048,575
        to `work`.
    work: the weight of all keys of a pickle together; default 100,000,000.
    clash: the weight of all keys that can be made to collide: those other than texts, bytes, and
        the results of calls and imports; default None.
    memory: the estimated bytes that loading takes; default None.
    """

    __slots__ = ()
    __match_args__ = (
        *("counted", "stack", "memo", "passed", "numbers", "large"),
        *("levels", "weight", "work", "clash", "memory"),
    )

    counted: int
    stack: int
    memo: int
    passed: int
    numbers: int
    large: bool
    levels: "Optional[int]"
    weight: "Optional[int]"
    work: "Optional[int]"
    clash: "Optional[int]"
    memory: "Optional[int]"

    def __new__(
        cls,
        *,
        counted: int = _USUAL,
        stack: int = _USUAL,
        memo: int = _USUAL,
        passed: int = 16_777_216,
        numbers: int = 1_000_000,
        large: bool = False,
        levels: "Optional[int]" = 1_000,
        weight: "Optional[int]" = 1_000_000,
        work: "Optional[int]" = 100_000_000,
        clash: "Optional[int]" = None,
        memory: "Optional[int]" = None,
    ) -> "Limits":
        many, few = (UNBOUND, UNBOUND) if flag("large", large) else (16_777_216, 1_000_000)
        values = (
            number("counted", many if counted is _USUAL else counted),
            number("stack", few if stack is _USUAL else stack),
            number("memo", few if memo is _USUAL else memo),
            number("passed", passed),
            number("numbers", numbers),
            large,
            *map(_cost, COSTS, (levels, weight, work, clash, memory)),
        )
        return cls._make(values)

    def __reduce__(self) -> "Tuple[Any, ...]":
        return (_limits_with, (self._asdict(),))


def flag(name: str, given: bool) -> bool:
    """An argument that must be a bool: None or "no" could mean the opposite of its truth value."""
    if not isinstance(given, bool):
        raise TypeError(f"{name} must be True or False, not {given!r:.80}")
    return given


def number(name: str, given: int) -> int:
    """An argument that must be a number of 64 bits."""
    if not hasattr(given, "__index__"):
        raise TypeError(f"{name} must be a whole number, not {given!r:.80}")
    if not 0 <= operator.index(given) < 1 << 64:
        raise ValueError(f"{name} must be a number from 0 to 2 ** 64 - 1, not {given!r:.80}")
    return int(given)


def _cost(name: str, given: "Optional[int]") -> "Optional[int]":
    """A limit on what loading costs. One that no key can exceed would only look like one, but for
    the number that says none in a list file.
    """
    limit = None if given is None else number(name, given)
    if name not in FURTHEST or limit is None or limit < FURTHEST[name]:
        return limit
    if limit != UNBOUND:
        raise ValueError(f"{name} must be below {FURTHEST[name]:,}, or None, not {limit:,}")
    return None


def _limits_with(fields: "Dict[str, Any]") -> Limits:
    """What pickles of Limits call."""
    return Limits(**fields)


def limits_of(
    counted: int, stack: int, memo: int, passed: int, numbers: int, large: int
) -> Limits:
    """Limits with these values, and the default limits on costs.

    Pickles of earlier versions call it. Some pass limits on costs too, of which None meant the
    default: they raise TypeError, since it would mean no limit now.
    """
    return Limits(
        counted=counted,
        stack=stack,
        memo=memo,
        passed=passed,
        numbers=numbers,
        large=bool(large),
    )


def costs_said(limits: Limits) -> "Dict[str, int]":
    """The limits on costs that aren't at their defaults, as a list file says them. Raises
    ValueError if it can't.
    """
    said = {}
    for name, (usual, _) in COSTS.items():
        limit, most = getattr(limits, name), MOST_SAID[name]
        if limit is not None and limit >= most:
            raise ValueError(f"in a list file {name} is below {most:,}, or none")
        if limit != usual:
            said[name] = most if limit is None else limit
    return said


def least(one: Limits, other: Limits) -> Limits:
    """The smaller of each two limits. On costs, one at its default yields to the other."""
    return Limits(**dict(zip(one._fields, map(_lesser, one._fields, one, other))))


def _lesser(name: str, one: "Optional[int]", other: "Optional[int]") -> "Any":
    usual = COSTS[name][0] if name in COSTS else None
    if usual is not None and usual in (one, other):
        return other if one == usual else one
    return min((it for it in (one, other) if it is not None), default=None)


@functools.lru_cache(maxsize=64)
def packed(limits: Limits, old_strings: str, keeps_memo: bool, build: str) -> bytes:
    """The bytes of a `struct storklocker_settings`, for sorted pairs."""
    counted, stack, memo, passed, numbers, large, *costs = limits._replace()
    mosts = [most for _, most in COSTS.values()]
    return _SETTINGS.pack(
        _SETTINGS.size,
        *(counted, stack, memo, passed, numbers),
        *(OLD_STRINGS.index(old_strings), keeps_memo, large, True),
        *(most if it is None else min(it, most) for it, most in zip(costs, mosts)),
        *(BUILDS.index(build), False),
    )


@functools.lru_cache(maxsize=64)
def without_costs(settings: bytes) -> bytes:
    """The settings, with no limit on what loading costs."""
    kept = _SETTINGS.unpack(settings)[: -len(COSTS) - 2]
    return _SETTINGS.pack(*kept, *(most for _, most in COSTS.values()), True, False)

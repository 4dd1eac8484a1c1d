"""The names that are loaded through substitutes under all lists, without these."""

from bisect import bisect_left

from ._facts import PACKAGES, SUBSTITUTED

TYPE_CHECKING = False
if TYPE_CHECKING:
    from typing import Any, Iterator, Tuple


def has_any(pairs: "Tuple[Any, ...]") -> bool:
    """Whether one of these sorted pairs is loaded through a substitute."""
    for module in SUBSTITUTED:
        names = set(SUBSTITUTED[module].encode().split())
        if any(name in names for _, name in _of(pairs, module.encode())):
            return True
    return any(
        at < len(pairs) and (pairs[at][0] == front or pairs[at][0].startswith(front + b"."))
        for front in map(str.encode, PACKAGES)
        for at in (bisect_left(pairs, (front, b"")), bisect_left(pairs, (front + b".", b"")))
    )


def _of(pairs: "Tuple[Any, ...]", module: bytes) -> "Iterator[Any]":
    at = bisect_left(pairs, (module, b""))
    while at < len(pairs) and pairs[at][0] == module:
        yield pairs[at]
        at += 1

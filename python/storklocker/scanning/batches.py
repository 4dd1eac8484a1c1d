"""What is looked at many at once, because each takes longer by itself."""

from __future__ import annotations

import operator
from typing import Callable, Iterator, List, Sequence, Tuple, TypeVar

from .source import BLOCK, Source

SIZES = 4, 256
"""The fewest items of a batch that are tried, where a try that fails costs them all, and the most.
"""
_SPAN = 1 << 20
"""The most bytes of a file that are read for a batch."""
_T = TypeVar("_T")


class Batches:
    """Splits items into batches: the more of the last ones were taken, the more are tried, between
    the fewest and the most.
    """

    def __init__(self, fewest: int, most: int) -> None:
        self._size, self._fewest, self._most = fewest, fewest, most

    def left_of(
        self, items: Sequence[_T], taken_of: Callable[[Sequence[_T]], int]
    ) -> Iterator[_T]:
        """The items that are to be looked at one by one, in their order.

        taken_of: takes so many of the first ones as it can.
        """
        at = 0
        while at < len(items):
            those = items[at : at + self._size]
            count = taken_of(those)
            at += count
            if count == len(those):
                self._size = min(2 * self._size, self._most)
            else:
                self._size = min(max(2 * count, self._fewest), self._most)
                yield items[at]
                at += 1


def parts_of(
    source: Source, begins: List[int], ends: List[int]
) -> Tuple[bytes, List[int], List[int]]:
    """Parts of a source, as the bytes of all and where in these each begins and ends; none if one
    is a large one, or leaves the source, or they are far from one another.
    """
    base, last = min(begins), max(ends)
    is_large = max(map(operator.sub, ends, begins)) > BLOCK
    if last - base > _SPAN or is_large or last > source.size:
        return b"", [], []
    data = source.read(base, last - base)
    return data, [at - base for at in begins], [at - base for at in ends]

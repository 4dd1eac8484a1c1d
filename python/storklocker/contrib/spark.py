"""Pickles in a column of Spark, checked or loaded on the workers.

    from storklocker.contrib.spark import check_rows

    refused = rdd.mapPartitions(check_rows(guard)).filter(lambda row: not row.accepted)

`rdd` has pairs of a key and the bytes of a pickle. Nothing is dropped: each entry yields a row.
"""

from __future__ import annotations

import functools
from typing import Any, Callable, Iterable, Iterator, Tuple

from .._guard import Guard
from ._rows import Row, checked, loaded

Partition = Callable[[Iterable[Tuple[Any, Any]]], Iterator[Row]]


def check_rows(guard: Guard) -> Partition:
    """A function for `mapPartitions`. Yields a `Row` for each pair: accepted or not, and why."""
    return functools.partial(_rows, checked, guard)


def load_rows(guard: Guard) -> Partition:
    """Like `check_rows`, with the value of each pickle that was accepted and loaded."""
    return functools.partial(_rows, loaded, guard)


def _rows(call: Any, guard: Guard, pairs: Iterable[Tuple[Any, Any]]) -> Iterator[Row]:
    for pair in pairs:
        yield from call([pair], guard)

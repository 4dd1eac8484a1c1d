"""Bags of pickles in Dask, checked or loaded on the workers.

    from storklocker.contrib.dask import check_bag, load_bag

    bag = dask.bag.from_sequence(pairs)         # of a key and the bytes of a pickle
    refused = check_bag(bag, guard).filter(lambda row: not row.accepted).compute()
    values = load_bag(bag, guard)               # of a key and the value, or the refusal

The guard is sent to the workers, so its hook must be picklable. Nothing is dropped: each entry
yields a row.
"""

from __future__ import annotations

from typing import Any

from .._guard import Guard
from ._rows import checked, loaded


def check_bag(bag: Any, guard: Guard) -> Any:
    """A bag with a `Row` for each pair of a key and a pickle: accepted or not, and why."""
    return bag.map_partitions(checked, guard)


def load_bag(bag: Any, guard: Guard) -> Any:
    """A bag with a `Row` for each pair, and its value if it was accepted and loaded."""
    return bag.map_partitions(loaded, guard)

"""A column of pickles in Spark, tried here on a partition, without a cluster.

On a cluster: ship the package with `--py-files`, then `rows.rdd.mapPartitions(loaded)`.
"""

import datetime
import pickle
from typing import Any, Iterable, Iterator, Optional, Tuple

PAIRS = [("collections", "OrderedDict"), ("datetime", "date")]


def loaded(partition: Iterable[Tuple[Any, Any]]) -> Iterator[Tuple[Any, Any, Optional[str]]]:
    """Each row's pickle, loaded, or the reason why not. One list serves the whole partition."""
    import storklocker  # type: ignore[import]  # on the executor

    allow = storklocker.AllowList(PAIRS)
    for key, data in partition:
        try:
            yield key, storklocker.loads(data, allow), None
        except storklocker.Refused as refusal:
            yield key, None, str(refusal)
        except Exception as error:  # data isn't bytes, or a call of an accepted pickle raises
            yield key, None, type(error).__name__


if __name__ == "__main__":
    rows = [
        (1, pickle.dumps(datetime.date(2026, 1, 2), 4)),
        (2, b"cbuiltins\neval\n(S'1'\ntR."),
        (3, bytearray(pickle.dumps([1, 2], 4)[:-1])),
        (4, b"N)R."),
        (5, None),
        (6, pickle.dumps([1, 2], 4)),
    ]
    for row in loaded(rows):
        print(row)

"""The readings that each file and each member is examined by."""

from __future__ import annotations

from typing import Callable, Dict, Sequence, Tuple

from .berkeley import berkeley_reading
from .caches import cachelib_reading
from .checkpoints import records_reading
from .hdf5_chunks import hdf5_reading
from .kinds import stored_reading
from .marks import HOLDING, READERS, beginning, is_named, is_unmarked, mark_of
from .npys import npy_reading
from .packed import (
    bzip2_reading, gzip_reading, lzma_reading, unknown_reading, xz_reading, zf_reading, zlib_reading
)
from .pickles import pickle_reading
from .readings import Reading
from .shelves import shelf_reading
from .source import Source
from .sqlite_files import sqlite_reading
from .stores import STORES
from .tars import may_be_tar, tar_reading
from .zips import zip_reading

READINGS: Dict[str, Reading] = {
    "dbm.dumb": shelf_reading,
    "pickle": pickle_reading,
    "cachelib": cachelib_reading,
    "distcp": records_reading,
    "npy": npy_reading,
    "tar": tar_reading,
    "gzip": gzip_reading,
    "bzip2": bzip2_reading,
    "xz": xz_reading,
    "lzma": lzma_reading,
    "zlib": zlib_reading,
    "ZF": zf_reading,
    "packed file": unknown_reading,
    "SQLite": sqlite_reading,
    "Berkeley DB": berkeley_reading,
    **STORES,
    "HDF5": hdf5_reading,
    "other stores": stored_reading,
    "zip": zip_reading,
}
"""By the name of what they read."""
assert tuple(READINGS) == READERS

JUDGED: Dict[str, Callable[[bytes], bool]] = {"tar": may_be_tar}
"""What judges whether a reader takes a file that has its mark, by the whole of it."""

_Item = Tuple[str, Reading]


def asked(path: str, source: Source) -> Sequence[_Item]:
    """The readings that have to be asked, by name: the others find nothing. Few have to be, of most
    files.
    """
    front = source.front()
    if not front or is_named(path):
        return tuple(READINGS.items())
    plain, _, names = beginning(front[:1])
    if len(front) == source.size:
        unmarked = is_unmarked(front)
        names = plain if unmarked else tuple(it for it in names if _may_take(it, front))
    return [(name, READINGS[name]) for name in names]


def _may_take(name: str, data: bytes) -> bool:
    """Whether a reader may take the file that is these bytes."""
    if HOLDING.get(name, b"") not in data or not mark_of(name).match(data):
        return False
    return name not in JUDGED or JUDGED[name](data)

"""Which real readers each row of the table in `docs/SCANNING.md` is compared with."""

import importlib.util
import pathlib
import re

from keepers import MAKERS

TABLE = pathlib.Path(__file__).resolve().parents[2] / "docs" / "SCANNING.md"
READERS = {
    "pickle": ("pickle", "pickle.py", "rows", "bytes", "persistent", "torch"),
    "joblib": ("joblib",),
    "npy, npz": ("numpy",),
    "zip": ("pandas zip", "torch"),
    "tar": ("pandas tar", "torch file"),
    "packed": ("pandas gzip", "pandas bz2", "pandas xz", "joblib", "cached"),
}
"""Those of `real.py`. `pandas.read_pickle` and the others load what they unpack."""
ENOUGH = 5000
"""In so many files each reader asks for something."""
LIBRARIES = ("joblib", "numpy", "pandas", "torch")
KEPT = {
    "SQLite": ("SQLite",),
    "stores": ("GDBM", "Berkeley DB", "LMDB", "HDF5", "Arrow", "Parquet", "ZODB", "Redis"),
    "caches": ("cachelib", "Django"),
    "dbm.dumb": ("dbm.dumb",),
    "distcp": ("distcp",),
}
"""What the programs of `keepers.py` keep."""


def faults():
    """Rows that nobody reads, and readers of none."""
    text = TABLE.read_text(encoding="utf-8").partition("| Reading |")[2].partition("\n\n")[0]
    rows = dict(re.findall(r"^\| ([^|-]+) \| ([^|]+) \|$", text, re.MULTILINE))
    read, held = {**READERS, **KEPT}, {it for it, _ in MAKERS.values()}
    yield from (f"nobody reads {row!r}" for row in rows if row not in read)
    yield from (f"there is no row {row!r}" for row in read if row not in rows)
    stores = rows.get("stores", "").partition(":")[0].split(", ")
    named = {*stores, *(it for row in KEPT.values() for it in row)}
    yield from (f"no program keeps {it}" for it in sorted(named) if it not in held)


def silent(asked, files):
    """The readers of these rows that asked for nothing in so many files, though they are here."""
    if files < ENOUGH:
        return []
    names = {name for row in READERS.values() for name in row}
    return sorted(it for it in names if not asked[it] and _is_here(it))


def _is_here(name):
    package = name.partition(" ")[0]
    return package not in LIBRARIES or importlib.util.find_spec(package) is not None

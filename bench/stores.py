#!/usr/bin/env python3
"""How long a scan takes of honest stores, beside a row of the same pickles in one file.

    PYTHONPATH=$PWD/python python3 bench/stores.py [--values N] [--turns N] [--only STORE ..]

For each kind of value it prints the processor time of the row, under the list of the values' names
and under none, and how many times that each store takes. Of some turns the best counts. The status
is 1 if a store under its list takes more than twice the time of the row, or isn't accepted.
"""

import argparse
import contextlib
import datetime
import dbm.dumb
import fractions
import io
import os
import pathlib
import pickle
import resource
import sqlite3
import subprocess
import sys
import tarfile
import tempfile
import zipfile

PYTHON = pathlib.Path(__file__).resolve().parent.parent / "python"
BOUND = 2.0
"""The most times of the row that a store under its list may take."""
NOON = datetime.datetime(2026, 1, 1, 12)
VALUES = {
    "numbers": ((), lambda number: number),
    "texts": ((), lambda number: f"the text of value {number}, " * 4),
    "dicts": ((), lambda number: {"id": number, "name": "x" * 20, "tags": ["a", "b"]}),
    "objects": (("fractions", "Fraction"), lambda number: fractions.Fraction(number, 7)),
    "dicts with dates": (
        ("datetime", "datetime"),
        lambda number: {"id": number, "when": NOON, "name": "x" * 20},
    ),
}
"""Each kind of value: the name that it imports, if any, and what makes one."""


def row(values):
    pathlib.Path("row.pickle").write_bytes(b"".join(values))
    return "row.pickle"


def sqlite(values):
    connection = sqlite3.connect("values.sqlite")
    connection.execute("create table t (k text primary key, v blob)")
    rows = ((f"k{number}", data) for number, data in enumerate(values))
    connection.executemany("insert into t values (?, ?)", rows)
    connection.commit()
    connection.close()
    return "values.sqlite"


def filled(store, values):
    with contextlib.closing(store):
        for number, data in enumerate(values):
            store[b"k%d" % number] = data


def dumb(values):
    filled(dbm.dumb.open("values", "n"), values)
    return "values.dat"


def gdbm(values):
    import dbm.gnu

    filled(dbm.gnu.open("values.gdbm", "nf"), values)
    return "values.gdbm"


def ndbm(values):
    import dbm.ndbm

    filled(dbm.ndbm.open("values", "n"), values)
    return "values.db"


def lmdb(values):
    import lmdb as module

    store = module.open("values.lmdb", subdir=False, lock=False, map_size=1 << 30)
    with store.begin(write=True) as transaction:
        for number, data in enumerate(values):
            transaction.put(b"k%d" % number, data)
    store.close()
    return "values.lmdb"


def zipped(values, packing=zipfile.ZIP_STORED):
    with zipfile.ZipFile("values.zip", "w", packing) as archive:
        for number, data in enumerate(values):
            archive.writestr(f"m{number}.pickle", data)
    return "values.zip"


def tarred(values):
    with tarfile.open("values.tar", "w") as archive:
        for number, data in enumerate(values):
            entry = tarfile.TarInfo(f"m{number}.pickle")
            entry.size = len(data)
            archive.addfile(entry, io.BytesIO(data))
    return "values.tar"


STORES = {
    "SQLite": sqlite,
    "GDBM": gdbm,
    "NDBM": ndbm,
    "dbm.dumb": dumb,
    "LMDB": lmdb,
    "zip": zipped,
    "zip, deflated": lambda values: zipped(values, zipfile.ZIP_DEFLATED),
    "tar": tarred,
}


def cost_of(path, listed):
    """The processor seconds of a scan, and its status."""
    words = [sys.executable, "-m", "storklocker", "scan", path, *listed]
    before = resource.getrusage(resource.RUSAGE_CHILDREN)
    ran = subprocess.run(words, stdout=subprocess.DEVNULL, check=False)
    after = resource.getrusage(resource.RUSAGE_CHILDREN)
    used = after.ru_utime - before.ru_utime + after.ru_stime - before.ru_stime
    return used, ran.returncode


def measured(paths, listed, turns):
    """The least seconds of each file, in turns, because the speed of a busy machine changes."""
    found = {}
    for _ in range(turns):
        for name, path in paths.items():
            used, status = cost_of(path, listed)
            found[name] = (min(used, found.get(name, (used,))[0]), status)
    return found


def files_of(values, only):
    """The file of the row and those of the stores, by name; of those that this Python can write."""
    found = {"row": row(values)}
    for name, make in STORES.items():
        try:
            if not only or name in only:
                found[name] = make(values)
                path = pathlib.Path(found[name])
                found[name] = str(path.rename(f"{name.replace(', ', '-')}{path.suffix}"))
                with contextlib.suppress(FileNotFoundError):
                    pathlib.Path("values.dir").rename(f"{name}.dir")
        except ImportError as error:
            print(f"{name}: {error}", file=sys.stderr)
    return found


def compare(kind, asked):
    """Prints how a kind of value does. Returns whether all are within the bound."""
    pair, make = VALUES[kind]
    values = [pickle.dumps(make(number), 4) for number in range(asked.values)]
    paths, is_within = files_of(values, asked.only), True
    names = f'{pair[0]} = ["{pair[1]}"]\n' if pair else ""
    pathlib.Path("list.toml").write_text(f"version = 2\n[imports]\n{names}", encoding="utf-8")
    for how, listed in (("listed", ("--allow", "list.toml")), ("no list", ())):
        found = measured(paths, listed, asked.turns)
        taken, _ = found.pop("row")
        size = sum(map(len, values)) // len(values)
        said = [f"{name} {used / taken:.2f}{'' if status == 0 else f' (status {status})'}"
                for name, (used, status) in found.items()]
        print(f"{kind} of {size} bytes, {how}: {taken:.2f} s; {', '.join(said)}", flush=True)
        if listed:
            is_within &= all(used <= BOUND * taken and not it for used, it in found.values())
    return is_within


def main():
    words = argparse.ArgumentParser(description=__doc__.splitlines()[0])
    words.add_argument("--values", type=int, default=100_000, help="values of a store (100,000)")
    words.add_argument("--turns", type=int, default=3, help="how often each is scanned (3)")
    words.add_argument("--only", nargs="*", default=(), choices=STORES, help="these stores")
    words.add_argument("--kinds", nargs="*", default=list(VALUES), choices=VALUES)
    asked = words.parse_args()
    os.environ["PYTHONPATH"] = os.environ.get("PYTHONPATH", str(PYTHON))
    is_within = True
    for kind in asked.kinds:
        with tempfile.TemporaryDirectory() as folder:
            os.chdir(folder)
            is_within &= compare(kind, asked)
            os.chdir("/")
    return 0 if is_within else 1


if __name__ == "__main__":
    sys.exit(main())

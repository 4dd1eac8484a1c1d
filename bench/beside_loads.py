#!/usr/bin/env python3
"""Times checks and guarded loads beside `pickle.loads`, on the shapes that cost a check most.

Each ratio is the median over the rounds, in which the readers take turns; the times are CPU times,
with the garbage collector off. The target of a check is a quarter of a load. The status is 1 if a
shape exceeds its bound. NumPy's and pandas' shapes are left out where these aren't installed.
"""
import argparse
import collections
import datetime
import decimal
import gc
import pathlib
import pickle
import subprocess
import sys
import tempfile
import time
import uuid
from types import ModuleType
from typing import Callable, Iterator, List, NamedTuple, Optional

import program
import shapes

sys.dont_write_bytecode = True
PYTHON = program.ROOT / "python"
sys.path.insert(0, str(PYTHON))
TARGET, BOUND = 0.25, 0.5
"""The most times of a load that a check should and may take."""


class Shape(NamedTuple):
    """A pickle, the list that it needs, how many calls take long enough to be timed, and the most
    times of a load that a check and a guarded load should and may take.
    """

    name: str
    data: bytes
    allow: object
    calls: int = 1
    check: float = BOUND
    loads: float = 0
    target: float = 0

    def line(self, ratios: List[Optional[float]]) -> str:
        told = " | ".join("" if it is None else f"{it:.2f}" for it in ratios)
        size = len(self.data)
        shown = f"{size / 1e6:.1f} MB" if size >= 10**5 else f"{size:,} bytes"
        return f"| {self.name} | {shown} | {told} | {self.remark(ratios)} |"

    def remark(self, ratios: List[Optional[float]]) -> str:
        """What is said of the ratios of the command, of a check, of one that limits no costs, and
        of a guarded load.
        """
        command, check, _, loads = (it or 0 for it in ratios)
        if self.loads:
            return "TOO SLOW" if loads > self.loads else "missed" if loads > self.target else ""
        worst = max(command, check)
        return "TOO SLOW" if worst > self.check else "missed" if worst > TARGET else ""


def small(storklocker: ModuleType) -> Iterator[Shape]:
    """Messages, as a queue has them."""
    value = {"id": 17, "tags": ["one", "two", "three"], "name": "a job", "args": (1, 2.5, None)}
    value["when"] = datetime.datetime(2026, 1, 2, 3, 4, 5)
    value["words"] = {f"key{k}": k for k in range(8)}
    plain = {name: it for name, it in value.items() if name != "when"}
    named = "a message without names, NumPy's list"
    yield Shape(named, pickle.dumps(plain, 4), storklocker.lists.NUMPY, 4000, 1, 2, 1.3)
    listed = storklocker.AllowList([("datetime", "datetime")])
    yield Shape("a message", pickle.dumps(value, 4), listed, 4000, 1, 1.6, 1.3)
    rows = [{"id": k, "name": f"user {k}", "score": k * 1.5} for k in range(65)]
    yield Shape("a message", pickle.dumps(rows, 4), listed, 500, 1, 1.5, 1.15)


def objects(storklocker: ModuleType) -> Iterator[Shape]:
    """Objects that calls make, one and a thousand of each kind, and a job of a queue."""
    when, pay = datetime.datetime(2026, 1, 2, 3, 4, 5), decimal.Decimal("12.50")
    job = {"id": 17, "task": "report", "queue": "default", "retries": 3, "args": ["one", "two"]}
    job.update(when=when, price=pay, uuid=uuid.UUID(int=5))
    pairs = [("a", 1), ("b", 2), ("c", 3)]
    kinds = {
        "a datetime": (lambda k: when + datetime.timedelta(k), 2.5, 1.5),
        "an object with a state": (lambda k: argparse.Namespace(id=k, name=f"n{k}"), 3, 2),
        "an OrderedDict": (lambda k: collections.OrderedDict(pairs), 4, 3),
        "a Decimal": (lambda k: pay * k, 3, 2),
        "an exception": (lambda k: ValueError("why", k), 8, 8),
        "a job": (lambda k: dict(job, id=k), 2, 2),
    }
    names = {"argparse": ["Namespace"], "builtins": ["ValueError"], "uuid": ["UUID"]}
    names.update(collections=["OrderedDict"], datetime=["datetime"], decimal=["Decimal"])
    listed = storklocker.AllowList(names)
    for name, (make, one, many) in kinds.items():
        yield Shape(name, pickle.dumps(make(7), 4), listed, 4000, 3, 1.5 * one, one)
        data = pickle.dumps([make(k) for k in range(1000)], 4)
        yield Shape(f"1,000 times {name}", data, listed, 20, 3, 1.5 * many, many)


def of_arrays(storklocker: ModuleType) -> Iterator[Shape]:
    """NumPy's and pandas' objects of 2 MB, as far as these are installed."""
    try:
        import numpy
    except ImportError:
        return
    lists = storklocker.lists
    array = pickle.dumps(numpy.arange(250_000.0), 4)
    yield Shape("a NumPy array", array, lists.NUMPY, 100, 1, 1.5, 1.25)
    try:
        import pandas
    except ImportError:
        return
    columns = {name: [f"{name} {i}" for i in range(40_000)] for name in ("one", "two", "three")}
    frame = pickle.dumps(pandas.DataFrame(columns), 4)
    yield Shape("a pandas frame of texts", frame, lists.PANDAS | lists.NUMPY, 1, 1, 1.6, 1.3)


def shapes_for(storklocker: ModuleType) -> Iterator[Shape]:
    """Every shape; one at a time is held in memory."""
    nothing = storklocker.AllowList([])
    for name, (protocol, make) in shapes.BESIDE_LOADS.items():
        yield Shape(name, pickle.dumps(make(), protocol), nothing)
    yield from small(storklocker)
    yield from objects(storklocker)
    yield from of_arrays(storklocker)


def timed(call: Callable[[], object], calls: int) -> float:
    began = time.process_time()
    for _ in range(calls):
        call()
    return (time.process_time() - began) / calls


def measure(
    storklocker: ModuleType, shape: Shape, allow: pathlib.Path, rounds: int
) -> List[Optional[float]]:
    """The times of the command, of a check, of one that limits no costs, and of a guarded load,
    beside those of a load. Small pickles aren't given to the command, whose start would be most of
    its time.
    """
    guard, data = storklocker.Guard(shape.allow), shape.data
    none = storklocker.Limits(levels=None, weight=None, work=None)
    free = storklocker.Guard(shape.allow, limits=none, build="any")
    path = allow.with_suffix(".pickle")
    path.write_bytes(data)
    bare: List[float] = []
    times: List[List[float]] = [[], [], [], []]
    for _ in range(rounds):
        bare.append(timed(lambda: pickle.loads(data), shape.calls))
        if shape.calls == 1 and not shape.loads:
            times[0].append(program.check(allow, path).seconds)
        times[1].append(timed(lambda: guard.check(data), shape.calls))
        times[2].append(timed(lambda: free.check(data), shape.calls))
        times[3].append(timed(lambda: guard.loads(data), shape.calls))
    return [program.ratio(took, bare) if took else None for took in times]


def main() -> int:
    words = argparse.ArgumentParser(description=__doc__.splitlines()[0])
    words.add_argument("--rounds", type=int, default=7, help="how often each reader runs (7)")
    words.add_argument("--archive", help="use this libpkguard.a instead of building one")
    words.add_argument(
        "--only", default="", metavar="WORD", help="only shapes with this word in their names"
    )
    asked = words.parse_args()
    more = ["--archive", asked.archive] if asked.archive else []
    subprocess.run([PYTHON / "make", *more], stdout=subprocess.DEVNULL, check=True)
    program.build()
    import storklocker  # type: ignore[import]
    import storklocker.lists  # type: ignore[import]

    gc.disable()
    print("| Shape | Size | `pktool check` | `guard.check` | At any cost | Guarded load | |")
    print("|---|---|---|---|---|---|---|")
    faults = 0
    with tempfile.TemporaryDirectory() as folder:
        allow = pathlib.Path(folder, "list.toml")
        allow.write_text(shapes.LIST)
        for shape in shapes_for(storklocker):
            if asked.only not in shape.name:
                continue
            ratios = measure(storklocker, shape, allow, asked.rounds)
            faults += shape.remark(ratios) == "TOO SLOW"
            print(shape.line(ratios), flush=True)
    print(f"times `pickle.loads`; {faults} above their bounds")
    return 1 if faults else 0


if __name__ == "__main__":
    sys.exit(main())

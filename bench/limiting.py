#!/usr/bin/env python3
"""Counts the processor instructions of a check with the default limits on costs, beside those of a
check without any, on plain data of many shapes.

`valgrind --tool=callgrind` counts them, so the load of the machine doesn't matter. What Python adds
cancels out: the figures are of three checks less one. The status is 1 if one of the first shapes,
which are the plain data of the other benchmarks, exceeds the target.
"""
import argparse
import os
import pathlib
import pickle
import pickletools
import re
import shutil
import subprocess
import sys
import tempfile
from typing import Dict, List

import program
import shapes

PYTHON = program.ROOT / "python"
TARGET = 2.2
"""How many times as many instructions a check with limits should execute."""
RECORDS, COUNT = 4_000, 12_000
"""How many records, and how many elements of the other shapes."""
FREE = "limits=Limits(levels=None, weight=None, work=None), build='any'"
CHECKS = """
import pathlib
from storklocker import AllowList, Guard, Limits
guard, data = Guard(AllowList([]){settings}), pathlib.Path({path!r}).read_bytes()
for _ in range({checks}):
    assert guard.check(data)
"""


def plain() -> Dict[str, bytes]:
    """The shapes of the other benchmarks, by name."""
    return {
        f"records, protocol {number}": b"".join(shapes.plain(number, RECORDS))
        for number in (0, 2, 4)
    }


def others() -> Dict[str, bytes]:
    """Lists of one kind of value each, dicts and sets."""
    numbers = [(k * 0x9E3779B1) % 2**31 for k in range(COUNT)]
    values: Dict[str, object] = {
        "integers": numbers,
        "floats": [number / 7 for number in numbers],
        "texts of 10 characters": [f"{number:010}" for number in numbers],
        "texts of 40 characters": [f"{number:040}" for number in numbers],
        "bytes": [b"%08d" % (number % 10**8) for number in numbers],
        "integers of 8 bytes": [number << 31 for number in numbers],
        "tuples of one": [(number,) for number in numbers],
        "tuples of two": [(number, number) for number in numbers],
        "tuples of five": [(number, 1, 2, 3, 4) for number in numbers],
        "lists of one": [[number] for number in numbers],
        "dicts of one": [{"key": number} for number in numbers],
        "sets of two": [{number, number + 1} for number in numbers],
        "frozensets of two": [frozenset((number, number + 1)) for number in numbers],
        "a dict of integers": dict(zip(numbers, numbers)),
        "a dict of tuples": {(number, number): number for number in numbers},
        "a set of integers": set(numbers),
    }
    return {name: pickle.dumps(value, 4) for name, value in values.items()}


def counted(path: pathlib.Path, settings: str, checks: int) -> int:
    """The instructions of a Python that checks the file so often."""
    text = CHECKS.format(settings=settings, path=str(path), checks=checks)
    words = ["valgrind", "--tool=callgrind", "--callgrind-out-file=/dev/null"]
    words += [sys.executable, "-S", "-B", "-c", text]
    environment = {**os.environ, "PYTHONPATH": str(PYTHON), "PYTHONHASHSEED": "0"}
    ended = subprocess.run(words, env=environment, capture_output=True, text=True)
    if ended.returncode != 0:
        sys.exit(ended.stdout + ended.stderr)
    return int(re.findall(r"Collected : (\d+)", ended.stderr)[0])


def measured(path: pathlib.Path, data: bytes) -> List[float]:
    """The instructions of a check per instruction of the pickle: with limits, and without."""
    path.write_bytes(data)
    count = sum(1 for _ in pickletools.genops(data))
    took = [counted(path, how, 3) - counted(path, how, 1) for how in ("", f", {FREE}")]
    return [taken / 2 / count for taken in took]


def main() -> int:
    words = argparse.ArgumentParser(description=__doc__.splitlines()[0])
    words.add_argument("--archive", help="use this libpkguard.a instead of building one")
    asked = words.parse_args()
    if shutil.which("valgrind") is None:
        sys.exit("wants valgrind")
    more = ["--archive", asked.archive] if asked.archive else []
    subprocess.run([PYTHON / "make", *more], stdout=subprocess.DEVNULL, check=True)
    missed = 0
    first = plain()
    print("| Shape | With limits | Without | Times |\n|---|---|---|---|")
    with tempfile.TemporaryDirectory() as folder:
        for name, data in {**first, **others()}.items():
            limited, free = measured(pathlib.Path(folder) / "pickle", data)
            print(f"| {name} | {limited:.1f} | {free:.1f} | {limited / free:.2f} |", flush=True)
            missed += name in first and limited / free > TARGET
    print(f"\nThe target is {TARGET}.")
    return 1 if missed else 0


if __name__ == "__main__":
    sys.exit(main())

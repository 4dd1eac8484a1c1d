#!/usr/bin/env python3
"""Optimizes pickles of the standard library's own objects, and loads both forms.

Each object is pickled in every protocol. `pktool optimize` must write a form that Python loads to
an equal object, that `pktool imports` accepts to its last byte, and that another `optimize` leaves
unchanged. Each line has the sizes of the pickle, of that form, and of the result of
`pickletools.optimize`; the last line counts.
"""
import pathlib
import pickle
import pickletools
import subprocess
import sys
import tempfile
from typing import Iterator, Optional, Tuple, Union

import objects
import tool

TOOL = tool.program()


def told(*words: Union[str, pathlib.Path]) -> Tuple[int, str]:
    """The status and the output of a command."""
    ended = subprocess.run([TOOL, *words], capture_output=True, text=True)
    return ended.returncode, ended.stdout + ended.stderr


def optimized(folder: pathlib.Path, data: bytes) -> Tuple[Optional[bytes], Tuple[int, str]]:
    """The optimized form of a pickle, and the line that reports it."""
    before, after = folder / "before.pickle", folder / "after.pickle"
    before.write_bytes(data)
    after.unlink(missing_ok=True)
    line = told("optimize", before, after)
    return after.read_bytes() if after.exists() else None, line


def is_same(data: bytes, form: bytes, protocol: int) -> bool:
    """Whether both load to equal objects.

    Few objects can be compared, so they are pickled again, which shows their parts, what is shared
    in them and what contains itself.
    """
    value, other = pickle.loads(data), pickle.loads(form)
    return type(value) is type(other) and pickle.dumps(value, protocol) == pickle.dumps(
        other, protocol
    )


def faults(
    folder: pathlib.Path, protocol: int, data: bytes, form: Optional[bytes], line: Tuple[int, str]
) -> Iterator[str]:
    """What is wrong with the optimized form of a pickle."""
    if form is None or line != (0, f"{len(data)} bytes to {len(form)} bytes\n"):
        yield f"optimize said {line}"
        return
    if not is_same(data, form, protocol):
        yield "another object"
    status, said = told("imports", folder / "after.pickle")
    if status != 0 or not said.splitlines()[-1].startswith(f"yes: {len(form)} bytes, "):
        yield f"imports said {said!r}"
    if optimized(folder, form)[0] != form:
        yield "optimizing it again changes it"


def main() -> int:
    right = wrong = 0
    sums = [0, 0, 0]
    with tempfile.TemporaryDirectory() as name:
        folder = pathlib.Path(name)
        for value, protocol, data in objects.pickles():
            form, line = optimized(folder, data)
            found = list(faults(folder, protocol, data, form, line))
            sizes = [len(data), len(form or b""), len(pickletools.optimize(data))]
            sums = [sum(both) for both in zip(sums, sizes)]
            right, wrong = right + (not found), wrong + bool(found)
            print(f"{type(value).__name__:20} {protocol}", *(f"{size:8}" for size in sizes), *found)
    print(f"{'all':22}", *(f"{size:8}" for size in sums))
    print(f"{right} passed, {wrong} failed")
    return 1 if wrong else 0


if __name__ == "__main__":
    sys.exit(main())

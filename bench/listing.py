#!/usr/bin/env python3
"""Times `pktool dis` into a pipe and `python -m pickletools`, and prints the ratio.

It measures CPU time. The peak memory of `pktool imports` is printed beside that of `pktool dis`: a
listing needs the memory of its check.
"""
import argparse
import os
import pathlib
import pickle
import subprocess
import sys
import tempfile
from typing import Iterator, Sequence, Tuple

import program
import shapes

RECORDS = 195_000
ROUNDS = 3
LEAST_RATIO = 20


def records() -> Iterator[bytes]:
    """Some 20 MB in protocol 4, with as many memo entries as the limits allow."""
    names = [f"record {i}, which waits for a worker" for i in range(RECORDS)]
    yield pickle.dumps([{**shapes.record(i), "name": name} for i, name in enumerate(names)], 4)


def listed(command: Sequence[program.Word]) -> Tuple[float, int, int]:
    """The CPU time of a command that writes into a pipe, its peak memory in bytes, and its lines.
    """
    started = subprocess.Popen(command, stdout=subprocess.PIPE)
    assert started.stdout
    lines = 0
    while piece := started.stdout.read(1 << 20):
        lines += piece.count(b"\n")
    started.stdout.close()
    _, ended, used = os.wait4(started.pid, 0)
    started.returncode = program.exit_code(ended)
    if started.returncode != 0:
        sys.exit(f"{command} ended with {started.returncode}")
    return used.ru_utime + used.ru_stime, used.ru_maxrss * 1024, lines


def main() -> None:
    argparse.ArgumentParser(description=__doc__.splitlines()[0]).parse_args()
    program.build()
    with tempfile.TemporaryDirectory() as folder:
        path = pathlib.Path(folder) / "file.pickle"
        size = shapes.write_apart(path, records)
        ours, peak, lines = min(listed([program.PROGRAM, "dis", path]) for _ in range(ROUNDS))
        _, peak_of_check, _ = listed([program.PROGRAM, "imports", path])
        theirs, other_peak, other_lines = listed([sys.executable, "-m", "pickletools", path])
    if lines != other_lines:
        sys.exit(f"{lines} lines, but {other_lines} of pickletools")
    print(f"{size / 1e6:.1f} MB, {lines:,} lines\n")
    print("| Command | Seconds | Peak MB |\n|---|---|---|")
    print(f"| `pktool dis` | {ours:.2f} | {peak / 1e6:.1f} |")
    print(f"| `pktool imports` | | {peak_of_check / 1e6:.1f} |")
    print(f"| `python -m pickletools` | {theirs:.2f} | {other_peak / 1e6:.1f} |")
    print(f"\n`pktool dis` is {theirs / ours:.0f} times as fast; the bound is {LEAST_RATIO} times.")
    sys.exit(0 if theirs >= LEAST_RATIO * ours else 1)


if __name__ == "__main__":
    main()

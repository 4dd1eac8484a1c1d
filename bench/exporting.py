#!/usr/bin/env python3
"""Times the whole command `pktool json` and `json.dumps(pickle.loads(..))` on plain data.

The two take turns. A time is that of the best round, a ratio the median over the rounds. It
measures CPU time and peak memory. Python works on bytes in memory with the garbage collector off;
the command starts, reads its file, writes its line into a pipe and ends.
"""
import argparse
import pathlib
import sys
import tempfile
from typing import List, Tuple

import program
import shapes

BOUND, TARGET = 1.25, 0.8
"""Relative to Python's time; above the bound it is a regression."""
DUMPS = "json.dumps(pickle.loads(data))"


def measure(path: pathlib.Path, rounds: int) -> Tuple[List[program.Run], List[program.Run]]:
    """The runs of the command, and of Python."""
    ours, theirs = [], []
    for _ in range(rounds):
        run = program.run("json", path)
        if run.status != 0:
            sys.exit(run.line)
        ours.append(run)
        theirs.append(program.python(DUMPS, path))
    return ours, theirs


def main() -> int:
    words = argparse.ArgumentParser(description=__doc__.splitlines()[0])
    words.add_argument("--rounds", type=int, default=5, help="how often each runs (5)")
    words.add_argument(
        "--shape", choices=shapes.EXPORTED, action="append", help="only this shape; may be repeated"
    )
    asked = words.parse_args()
    program.build()
    print("| Shape | MB | Seconds | Times Python | Peak MB | Peak of Python, MB |")
    print("|---|---|---|---|---|---|")
    kept = True
    with tempfile.TemporaryDirectory() as folder:
        path = pathlib.Path(folder, "file.pickle")
        for name in asked.shape or shapes.EXPORTED:
            size = shapes.write_apart(path, shapes.EXPORTED[name])
            ours, theirs = measure(path, asked.rounds)
            times = program.ratio([it.seconds for it in ours], [it.seconds for it in theirs])
            kept = kept and times <= BOUND
            print(
                f"| {name} | {size / 1e6:.1f} | {min(it.seconds for it in ours):.3f} "
                f"| {times:.2f} | {ours[0].peak / 1e6:.0f} | {theirs[0].peak / 1e6:.0f} |",
                flush=True,
            )
    print(f"\nThe target is {TARGET:.2f} times Python's time, the bound {BOUND:.2f} times.")
    return 0 if kept else 1


if __name__ == "__main__":
    sys.exit(main())

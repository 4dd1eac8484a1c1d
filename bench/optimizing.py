#!/usr/bin/env python3
"""Times the whole command `pktool optimize`, `pickletools.optimize`, `pktool check`, and Python
reading the file and writing a copy.

The commands take turns. A time is that of the best round, a ratio the median over the rounds. It
measures CPU time and peak memory. `pickletools.optimize` works once on bytes in memory with the
garbage collector off; the command starts, reads its file, writes the other and ends.
"""
import argparse
import dataclasses
import pathlib
import sys
import tempfile
from typing import List, Sequence

import program
import shapes

BOUND, TARGET = 15, 100
"""Speedup over `pickletools.optimize`. Below the bound is a regression, unless input and output are
most of the work.
"""
COPIES_BOUND, COPIES_TARGET = 3, 1.2
"""Times reading and writing the file, where that is most of the work."""

COPIES = "open(sys.argv[1] + '.copy', 'wb').write(open(sys.argv[1], 'rb').read())"


@dataclasses.dataclass(frozen=True)
class Measured:
    """The size of a pickle in bytes, the runs by round, and a run of `pickletools.optimize`."""

    size: int
    check: List[program.Run]
    copy: List[program.Run]
    ours: List[program.Run]
    theirs: program.Run

    def best(self) -> program.Run:
        return min(self.ours, key=lambda run: run.seconds)

    def beside(self, runs: Sequence[program.Run]) -> float:
        """The ratio of the command's time to that of other runs."""
        ours, others = ([run.seconds for run in them] for them in (self.ours, runs))
        return program.ratio(ours, others)

    def faster(self) -> float:
        return self.theirs.seconds / self.best().seconds

    def row(self, name: str) -> str:
        best = self.best()
        return (
            f"| {name} | {self.size / 1e6:.1f} | {best.seconds:.3f} "
            f"| {self.beside(self.check):.2f} | {self.beside(self.copy):.2f} "
            f"| {self.faster():.1f} | {best.peak / 1e6:.0f} | {self.theirs.peak / 1e6:.0f} |"
        )


def measure(folder: pathlib.Path, make: shapes.Make, rounds: int) -> Measured:
    """The runs of a shape, which take turns."""
    path, out, allow = folder / "file.pickle", folder / "out.pickle", folder / "list.toml"
    allow.write_text(shapes.LIST)
    size = shapes.write_apart(path, make)
    theirs = program.python("pickletools.optimize(data)", path)
    measured = Measured(size, [], [], [], theirs)
    for _ in range(rounds):
        ours = program.run("optimize", path, out)
        if ours.status != 0:
            sys.exit(ours.line)
        measured.ours.append(ours)
        measured.check.append(program.check(allow, path))
        measured.copy.append(program.python(COPIES, path))
    return measured


def main() -> int:
    words = argparse.ArgumentParser(description=__doc__.splitlines()[0])
    words.add_argument("--rounds", type=int, default=5, help="how often each command runs (5)")
    words.add_argument(
        "--shape", choices=shapes.SHAPES, action="append", help="only this shape; may be repeated"
    )
    asked = words.parse_args()
    program.build()
    print(
        "| Shape | MB | Seconds | Times `pktool check` | Times reading and writing "
        "| Times faster than `pickletools.optimize` | Peak MB | Its peak MB |"
    )
    print("|---|---|---|---|---|---|---|---|")
    kept = True
    for name in asked.shape or shapes.SHAPES:
        with tempfile.TemporaryDirectory() as folder:
            measured = measure(pathlib.Path(folder), shapes.SHAPES[name], asked.rounds)
        copies = measured.beside(measured.copy)
        kept = kept and (measured.faster() >= BOUND or copies <= COPIES_BOUND)
        print(measured.row(name), flush=True)
    print(f"\nThe target is {TARGET} times, the bound {BOUND} times. On byte strings:")
    print(f"{COPIES_TARGET} times reading and writing the file, bound {COPIES_BOUND} times.")
    return 0 if kept else 1


if __name__ == "__main__":
    sys.exit(main())

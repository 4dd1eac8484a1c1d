#!/usr/bin/env python3
"""Times the whole command `pktool check` and CPython's own readers, and prints ratios.

The readers take turns. A time is that of the best round; a ratio is the median over the rounds, in
which both readers ran at nearly the same moment, because the speed of a shared machine changes
within seconds. It measures CPU time, which other work on the machine affects less than wall time;
nothing here waits, so on a quiet machine the two agree.
`pickle.loads` works on bytes in memory with the garbage collector off; the command starts, reads
its list and its file, and ends.
"""
import argparse
import dataclasses
import gc
import os
import pathlib
import pickle
import pickletools
import sys
import tempfile
import time
from typing import Callable, List, Sequence

import picture
import program
import shapes


def timed(action: Callable[[], object]) -> float:
    start = time.process_time()
    action()
    return time.process_time() - start


def load(data: bytes) -> None:
    pickle.loads(data)


def walk(data: bytes) -> None:
    for _ in pickletools.genops(data):
        pass


@dataclasses.dataclass(frozen=True)
class Measured:
    """The size of a pickle in bytes, the number of its instructions, and the times of its readers
    by round, in seconds.
    """

    size: int
    count: int
    check: List[float]
    loads: List[float]
    genops: List[float]

    def beside(self, times: Sequence[float]) -> float:
        """The ratio of the command's time to that of another reader."""
        return program.ratio(self.check, times)

    def row(self, name: str) -> str:
        check = min(self.check)
        return (
            f"| {name} | {self.size / 1e6:.1f} | {self.count:,} | {check:.3f} "
            f"| {check / self.count * 1e9:.1f} | {self.beside(self.loads):.2f} "
            f"| {1 / self.beside(self.genops):.0f} |"
        )


def measure(name: str, path: pathlib.Path, allow: pathlib.Path, rounds: int) -> Measured:
    """The times of the command, of `pickle.loads` and of `pickletools.genops`."""
    data = path.read_bytes()
    count = sum(1 for _ in pickletools.genops(data))
    measured = Measured(len(data), count, [], [], [])
    for _ in range(rounds):
        run = program.check(allow, path)
        if run.status != 0:
            sys.exit(f"{name}: {run.line}")
        measured.check.append(run.seconds)
        measured.loads.append(timed(lambda: load(data)))
        measured.genops.append(timed(lambda: walk(data)))
    return measured


def main() -> None:
    words = argparse.ArgumentParser(description=__doc__.splitlines()[0])
    words.add_argument("--rounds", type=int, default=5, help="how often each reader runs (5)")
    words.add_argument(
        "--shape", choices=shapes.SHAPES, action="append", help="only this shape; may be repeated"
    )
    words.add_argument(
        "--picture", type=pathlib.Path, metavar="FILE", help="also draw the ratios into FILE (SVG)"
    )
    asked = words.parse_args()
    program.build()
    gc.disable()
    ratios = {}
    print(
        "| Shape | MB | Instructions | Seconds | ns an instruction "
        "| Times `pickle.loads` | Faster than `genops` |"
    )
    print("|---|---|---|---|---|---|---|")
    with tempfile.TemporaryDirectory() as folder:
        allow = pathlib.Path(folder, "list.toml")
        allow.write_text(shapes.LIST)
        for name in asked.shape or shapes.SHAPES:
            path = pathlib.Path(folder, "pickle")
            shapes.write_apart(path, shapes.SHAPES[name])
            measured = measure(name, path, allow, asked.rounds)
            print(measured.row(name), flush=True)
            ratios[name] = measured.beside(measured.loads)
            os.remove(path)
    if asked.picture:
        asked.picture.write_text(picture.drawing(ratios))


if __name__ == "__main__":
    main()

#!/usr/bin/env python3
"""Runs `pktool optimize` and `pktool json` on files designed to cost them time or memory.

The status is 1 if one costs too much. The time per byte excludes the command's start. The target is
five times that of a byte of plain data, the bound twelve; the peak memory may be at most 96 MB plus
a multiple of the file size. A file below a megabyte counts as one. The files include those
that cost a check much; many of these aren't plain, and `json` refuses them.
"""
import dataclasses
import functools
import pathlib
import sys
import tempfile
from typing import Mapping, Tuple

import hostile_shapes
import program
import shapes
import worst_shapes

TARGET, BOUND = 5, 12
TRIES = 3
BASE = 96 * 10**6
LEAST = 10**6


@dataclasses.dataclass(frozen=True)
class Command:
    """A command, the plain data and the files it is tried on, and its memory bound per byte of a
    file.
    """

    word: str
    plain: shapes.Make
    files: Mapping[str, hostile_shapes.Make]
    per_byte: int


HOSTILE = {**hostile_shapes.GROWING, **hostile_shapes.AT_LIMITS}
CHECKED = {name: shape.make for name, shape in HOSTILE.items()}
OPTIMIZED = {**CHECKED, **worst_shapes.OPTIMIZED}
EXPORTED = {**CHECKED, **worst_shapes.EXPORTED}

COMMANDS = [
    Command("optimize", functools.partial(shapes.plain, 4), OPTIMIZED, 12),
    Command("json", functools.partial(shapes.exported, 4), EXPORTED, 60),
]


class Bench:
    """A folder with plain data, and one pickle at a time."""

    def __init__(self, folder: str, command: Command, rounds: int) -> None:
        self.pickle = pathlib.Path(folder, "pickle")
        self.word = command.word
        self.out = [pathlib.Path(folder, "out")] if command.word == "optimize" else []
        self.rounds = rounds
        self.idle: float = 0
        self.idle = self.run(lambda: [b"N."])[0].seconds
        self.plain_pickle = pathlib.Path(folder, "plain")
        self.plain_size = shapes.write_apart(self.plain_pickle, command.plain)

    def run(self, make: shapes.Make) -> Tuple[program.Run, float, int]:
        """The best run on a pickle that is written anew, the time per byte in nanoseconds, and the
        size.
        """
        size = shapes.write_apart(self.pickle, make)
        return *self.cost(self.pickle, size), size

    def plain(self) -> float:
        """The time per byte of plain data, in nanoseconds."""
        return self.cost(self.plain_pickle, self.plain_size)[1]

    def cost(self, pickle: pathlib.Path, size: int) -> Tuple[program.Run, float]:
        run = program.best_of(self.rounds, lambda: program.run(self.word, pickle, *self.out))
        return run, (run.seconds - self.idle) / max(size, LEAST) * 1e9


def judged(bench: Bench, name: str, make: shapes.Make, per_byte: int) -> bool:
    """Prints the line of a shape, and returns whether it keeps both bounds. Plain data is measured
    right before it. If the shape misses the target, both are measured again.
    """
    for _ in range(TRIES):
        plain = bench.plain()
        run, took, size = bench.run(make)
        times = took / plain
        if times <= TARGET:
            break
    bound = BASE + per_byte * size
    faults = ["TOO SLOW"] * (times > BOUND) + ["TOO LARGE"] * (run.peak > bound)
    remarks = faults or ["above the target"] * (times > TARGET)
    print(
        f"{name:40} {size / 1e6:6.1f} MB {took:7.2f} ns a byte, "
        f"{times:5.2f} times plain data, {run.peak / 1e6:6.1f} of {bound / 1e6:.0f} MB  "
        f"{run.line.strip()[:40]} {', '.join(remarks)}",
        flush=True,
    )
    return not faults


def main() -> int:
    words = hostile_shapes.options(__doc__ or "", rounds=2)
    words.add_argument(
        "--command", choices=[command.word for command in COMMANDS], help="only this command"
    )
    asked = words.parse_args()
    program.build()
    kept = []
    for command in COMMANDS:
        if asked.command not in (None, command.word):
            continue
        with tempfile.TemporaryDirectory() as folder:
            bench = Bench(folder, command, asked.rounds)
            print(f"\n{command.word}: {bench.plain():.2f} ns a byte of plain data of protocol 4")
            for name, make in command.files.items():
                if asked.only in name:
                    sized = functools.partial(make, asked.megabytes)
                    kept.append(judged(bench, name, sized, command.per_byte))
    print(f"{kept.count(True)} within both bounds, {kept.count(False)} not")
    return 0 if all(kept) else 1


if __name__ == "__main__":
    sys.exit(main())

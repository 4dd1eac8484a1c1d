#!/usr/bin/env python3
"""Checks files that are designed to cost time or memory. The status is 1 if one costs too much.

The time per byte excludes the list and the program's start. A byte may cost 1.5 times what
`pickle.loads` takes for a byte of plain data: a service that loads pickles pays about that anyway.
The peak memory may be at most 96 MB plus three times the size of the file, or 64 times under the
limits for large data, because a stack or memo entry takes more than the byte that creates it.
"""
import functools
import pathlib
import sys
import tempfile
from typing import Dict, NamedTuple

import hostile_shapes
import program
import shapes

BOUND = 1.5
TRIES = 3
BASE = 96 * 10**6
PER_BYTE = 3
PER_BYTE_LARGE = 64


class Cost(NamedTuple):
    """The time per byte in nanoseconds, the peak memory, the size, and the line."""

    took: float
    peak: int
    size: int
    line: str


class Bench:
    """A folder with plain data, and one list and one pickle at a time."""

    def __init__(self, folder: str, rounds: int) -> None:
        self.allow = pathlib.Path(folder, "list.toml")
        self.pickle = pathlib.Path(folder, "pickle")
        self.rounds = rounds
        self.idle: Dict[str, float] = {}
        self.plain_pickle = pathlib.Path(folder, "plain")
        self.plain_size = 0

    def run(self, allow: str, make: shapes.Make) -> Cost:
        """Checks a pickle, which is written anew."""
        return self.cost(allow, self.pickle, shapes.write_apart(self.pickle, make))

    def plain(self) -> float:
        """The nanoseconds that `pickle.loads` takes for a byte of plain data of protocol 4, which
        is written once.
        """
        if not self.plain_size:
            make = functools.partial(shapes.plain, 4)
            self.plain_size = shapes.write_apart(self.plain_pickle, make)
        loaded = lambda: program.python("pickle.loads(data)", self.plain_pickle)  # noqa: E731
        return program.best_of(self.rounds, loaded).seconds / self.plain_size * 1e9

    def cost(self, allow: str, pickle: pathlib.Path, size: int) -> Cost:
        self.allow.write_text(allow)
        if allow not in self.idle:
            none = self.allow.with_suffix(".pickle")
            none.write_bytes(b"N.")
            self.idle[allow] = program.best(self.allow, none, self.rounds).seconds
        run = program.best(self.allow, pickle, self.rounds)
        return Cost((run.seconds - self.idle[allow]) / size * 1e9, run.peak, size, run.line)


def shortened(line: str) -> str:
    return line.strip() if len(line) <= 40 else line[:37] + ".."


def judged(
    bench: Bench, name: str, hostile: hostile_shapes.Hostile, megabytes: int, per_byte: int
) -> bool:
    """Prints the line of a shape, and returns whether it keeps both bounds. Plain data is loaded
    right before it, because the speed of a shared machine changes. If the shape exceeds the bound,
    both are measured again.
    """
    make = functools.partial(hostile.make, megabytes)
    for _ in range(TRIES):
        plain = bench.plain()
        cost = bench.run(hostile.allow, make)
        times = cost.took / plain
        if times <= BOUND:
            break
    bound = BASE + per_byte * cost.size
    faults = ["TOO SLOW"] * (times > BOUND) + ["TOO LARGE"] * (cost.peak > bound)
    print(
        f"{name:40} {cost.size / 1e6:6.1f} MB {cost.took:7.2f} ns a byte, "
        f"{times:5.2f} times a load of plain data, {cost.peak / 1e6:6.1f} of {bound / 1e6:.0f} MB  "
        f"{shortened(cost.line)} {', '.join(faults)}",
        flush=True,
    )
    return not faults


def main() -> int:
    words = hostile_shapes.options(__doc__ or "", rounds=3)
    words.add_argument(
        "--large", action="store_true", help="the scalable shapes under the limits for large data"
    )
    asked = words.parse_args()
    program.build()
    with tempfile.TemporaryDirectory() as folder:
        bench = Bench(folder, asked.rounds)
        print(f"pickle.loads of plain data in protocol 4: {bench.plain():.2f} ns a byte")
        every = {**hostile_shapes.GROWING, **hostile_shapes.AT_LIMITS}
        if asked.large:
            every = hostile_shapes.AT_NO_LIMIT
        per_byte = PER_BYTE_LARGE if asked.large else PER_BYTE
        wanted = {name: hostile for name, hostile in every.items() if asked.only in name}
        kept = [
            judged(bench, name, hostile, asked.megabytes, per_byte)
            for name, hostile in wanted.items()
        ]
    print(f"{kept.count(True)} within both bounds, {kept.count(False)} not")
    return 0 if all(kept) else 1


if __name__ == "__main__":
    sys.exit(main())

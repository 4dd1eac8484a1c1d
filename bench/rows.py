#!/usr/bin/env python3
"""Checks rows of 25,000, 50,000 and 100,000 small pickles.

The status is 1 if a pickle costs more in a longer row. It prints the time per pickle, without the
program's start and its list, and the peak memory for the longest row.
"""
import argparse
import datetime
import pathlib
import pickle
import struct
import sys
import tempfile
from typing import Callable, Dict, Iterable, Iterator, List, Tuple

import growth
import program
import shapes

COUNTS = [25_000, 50_000, 100_000]

# Makes the chunks of a row of this many pickles.
Make = Callable[[int], Iterable[bytes]]


def nothing(count: int) -> Iterator[bytes]:
    yield b"N." * count


def records(count: int) -> Iterator[bytes]:
    """As in a log."""
    for i in range(count):
        yield pickle.dumps(shapes.record(i), 4)


def datetimes(count: int) -> Iterator[bytes]:
    """Each with an import and with frames."""
    for i in range(count):
        yield pickle.dumps(datetime.datetime(2001, 2, 3) + datetime.timedelta(minutes=i), 4)


def behind_a_large_one(count: int) -> Iterator[bytes]:
    """The first fills the stack and the memo. Its needs don't affect the cost of the others."""
    yield b"(" + b"N\x94" * 999_999 + b"t."
    yield from nothing(count)


def behind_scattered_numbers(count: int) -> Iterator[bytes]:
    """The first stores under numbers that are far apart."""
    numbers = (i * 2_654_435_761 % 2**32 for i in range(100_000))
    yield b"N" + b"".join(b"r" + struct.pack("<I", number) for number in numbers) + b"."
    yield from nothing(count)


SHAPES: Dict[str, Make] = {
    "None": nothing,
    "records, protocol 4": records,
    "datetimes, protocol 4": datetimes,
    "None behind a large one": behind_a_large_one,
    "None behind scattered memo numbers": behind_scattered_numbers,
}


class Bench:
    """A folder with one row at a time, and the cost of a row of one pickle."""

    def __init__(self, folder: str, rounds: int) -> None:
        self.allow = pathlib.Path(folder, "list.toml")
        self.row = pathlib.Path(folder, "row")
        self.rounds = rounds
        self.allow.write_text(shapes.LIST)
        shapes.write(self.row, [b"N."])
        self.idle = self.best().seconds

    def best(self) -> program.Run:
        words: List[program.Word] = ["check", "--allow", self.allow, "--all", self.row]
        return program.best_of(self.rounds, lambda: program.run(*words))

    def run(self, make: Make, count: int) -> Tuple[float, int]:
        """The time per pickle in nanoseconds, and the peak memory."""
        shapes.write_apart(self.row, lambda: make(count))
        run = self.best()
        if run.status != 0:
            sys.exit(f"refused: {run.line}")
        return (run.seconds - self.idle) / count * 1e9, run.peak


def grows_evenly(bench: Bench, name: str, make: Make) -> bool:
    """Prints the line of a shape, and returns whether a pickle costs the same in the longest row.
    If it seems not to, the shape is measured again: other work on the machine may be the cause.
    """
    for _ in range(growth.TRIES):
        runs = [bench.run(make, count) for count in COUNTS]
        even = runs[2][0] <= growth.NOISE * runs[1][0]
        if even:
            break
    told = f"ns a pickle, {runs[2][1] / 1e6:6.1f} MB {'' if even else 'GROWS FASTER'}"
    print(f"{name:40}", *(f"{ns:8.0f}" for ns, _ in runs), told, flush=True)
    return even


def main() -> int:
    words = argparse.ArgumentParser(description=__doc__.splitlines()[0])
    words.add_argument(
        "--rounds", type=int, default=5, help="how often each row is checked (5); the best counts"
    )
    asked = words.parse_args()
    program.build()
    print(f"{'pickles':40}", *(f"{count:8,}" for count in COUNTS))
    with tempfile.TemporaryDirectory() as folder:
        bench = Bench(folder, asked.rounds)
        even = [grows_evenly(bench, name, make) for name, make in SHAPES.items()]
    print(f"{even.count(True)} grow with their rows, {even.count(False)} faster")
    return 0 if all(even) else 1


if __name__ == "__main__":
    sys.exit(main())

#!/usr/bin/env python3
"""Checks the same shapes at 1, 4 and 16 MB. The status is 1 if one grows faster than its file.

It prints the time per byte, without the program's start and its list.
"""
import argparse
import functools
import sys
import tempfile
from typing import Iterator, Tuple

import hostile
import hostile_shapes
import program
import shapes

SIZES = [1, 4, 16]

# A byte of the largest file may cost this many times as much as a byte of the middle one. The rest
# is noise: caches, and the first touch of memory.
NOISE = 1.5
TRIES = 3


def plain(protocol: int, megabytes: int) -> Iterator[bytes]:
    """About as many records as fill the size."""
    sample = sum(map(len, shapes.plain(protocol, 1_000)))
    return shapes.plain(protocol, megabytes * 1_000_000 * 1_000 // sample)


def growing() -> Iterator[Tuple[str, hostile_shapes.Hostile]]:
    for protocol in (0, 2, 4):
        make = functools.partial(plain, protocol)
        yield f"plain data, protocol {protocol}", hostile_shapes.Hostile(make, shapes.LIST)
    yield from hostile_shapes.GROWING.items()


def grows_evenly(bench: hostile.Bench, name: str, shape: hostile_shapes.Hostile) -> bool:
    """Prints the line of a shape, and returns whether a byte costs the same in larger files. If it
    seems not to, the shape is measured again: other work on the machine may be the cause.
    """
    for _ in range(TRIES):
        makes = [functools.partial(shape.make, megabytes) for megabytes in SIZES]
        took = [bench.run(shape.allow, make).took for make in makes]
        even = took[2] <= NOISE * took[1]
        if even:
            break
    told = "" if even else "GROWS FASTER"
    print(f"{name:40}", *(f"{ns:8.2f}" for ns in took), "ns a byte", told, flush=True)
    return even


def main() -> int:
    words = argparse.ArgumentParser(description=__doc__.splitlines()[0])
    words.add_argument(
        "--rounds", type=int, default=5, help="how often each file is checked (5); the best counts"
    )
    words.add_argument(
        "--only", default="", metavar="WORD", help="only shapes with this word in their names"
    )
    asked = words.parse_args()
    program.build()
    print(f"{'at MB':40}", *(f"{size:8}" for size in SIZES))
    with tempfile.TemporaryDirectory() as folder:
        bench = hostile.Bench(folder, asked.rounds)
        even = [grows_evenly(bench, name, shape) for name, shape in growing() if asked.only in name]
    print(f"{even.count(True)} grow with their files, {even.count(False)} faster")
    return 0 if all(even) else 1


if __name__ == "__main__":
    sys.exit(main())

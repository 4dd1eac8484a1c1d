#!/usr/bin/env python3
"""Loads generated pickles under each ready-made list: honest ones of which some parts are replaced
by whatever a pickle can make. Nothing runs, opens, imports, dies, changes what was there before, or
takes much time or memory.

    PYTHONPATH=python python3 python/tests/hostile/generated.py [LIST ..] [--pickles N] [--seed N]

A pickle follows from the seed and its number, which a finding tells: `--first NUMBER --pickles 1`
tries it alone.
"""

import argparse
import contextlib
import platform
import resource
import sys
from pathlib import Path
from pickle import UnpicklingError

sys.path[:0] = [str(Path(__file__).resolve().parent)]

import honest  # noqa: E402
from children import SECONDS, Children, begin, is_here  # noqa: E402
from mutating import Mutator  # noqa: E402
from storklocker import Guard, lists  # noqa: E402
from storklocker.judge import shapes  # noqa: E402
from widening import of_here, widened  # noqa: E402

BATCH = 250
"""How many pickles a child loads."""


def run(name, asked):
    """Tries pickles under a list. Returns those accepted and loaded, and what was found."""
    held, end = honest.pickles(name, asked.few), asked.first + asked.pickles
    if not held:  # (its library isn't here: no load gets far)
        return 0, 0, []
    allow = widened(of_here(getattr(lists, name), held))
    load = honest.loader(name, Guard(allow))
    pairs = [pair for pair in allow if is_here(pair)]
    for data in held:  # (has everything imported that a load needs)
        # (some exceptions raise it, under `pickle` too; some enums are pickled by `getattr`; and a
        # checkpoint lacks some storages, or has other indices)
        with contextlib.suppress(TypeError, UnpicklingError, RuntimeError):
            load(data)
    mutator = Mutator(held, pairs, shapes.fragments())
    children = Children(load, pairs, asked.seconds, BATCH)
    found = []
    for begun in range(asked.first, end, BATCH):
        numbers = range(begun, min(begun + BATCH, end))
        cases = [mutator.made(f"{name} {asked.seed} {number}") for number in numbers]
        for at, said in children.findings(cases):
            found.append((said, cases[at]))
            print(f"{name} {begun + at}: {said}: {cases[at][:4000].hex()}", flush=True)
    return children.accepted, children.loaded, found


def _seconds():
    """What this process and its children have taken of the processor."""
    used = map(resource.getrusage, (resource.RUSAGE_SELF, resource.RUSAGE_CHILDREN))
    return sum(it.ru_utime + it.ru_stime for it in used)


def main():
    parser = argparse.ArgumentParser(description=__doc__.partition("\n\n")[0])
    parser.add_argument("lists", nargs="*", metavar="LIST")
    parser.add_argument("--pickles", type=int, default=1000, help="for each list")
    parser.add_argument("--first", type=int, default=0, help="the number of the first")
    parser.add_argument("--few", action="store_true", help="begin with what is quickly made")
    parser.add_argument("--seed", type=int, default=1)
    parser.add_argument("--seconds", type=float, default=SECONDS, help="for a pickle, at most")
    asked = parser.parse_args()
    begin()
    many = tried = 0
    for name in asked.lists or lists.__all__:
        begun = _seconds()
        accepted, loaded, found = run(name, asked)
        print(f"{name}: {asked.pickles:,} pickles, {accepted:,} accepted, {loaded:,} loaded,"
              f" {len(found)} findings, {_seconds() - begun:.0f} s, {platform.python_version()}",
              flush=True)
        many, tried = many + len(found), tried + accepted
    print(f"{many} findings")
    return 1 if many or not tried else 0


if __name__ == "__main__":
    sys.exit(main())

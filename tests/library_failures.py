#!/usr/bin/env python3
"""Refuses each allocation of the library's own tests in turn, using the tests that the gate has
built.

A test must pass, or fail and name the refused allocation: as the error that it returns, or as the
answer that it compares with the row's own. The first that ends otherwise ends the script with
status 1. It prints a line per test, and finally how many cases passed.
"""
import argparse
import collections
import itertools
import os
import pathlib
import re
import sys
import tempfile
from typing import Counter, Optional, Tuple

import program
import progress
import refusing

SECONDS = 60

# The program of the tests, and those whose failure shows the answer.
PROGRAM = program.ROOT / "crates" / "pkrows" / "out" / "pkrows_tests"
TESTS = [
    "exported::refusals",
    "exported::values",
    "lists::pairs_of_a_list",
    "opcodes::each_opcode",
    "optimized::in_one_frame",
    "optimized::refused_by_the_check",
    "optimized::without_frames",
    "sources::a_read_that_fails_and_an_early_end",
    "spellings::the_whole_is_read_and_written_back",
    "verdicts::under_a_list",
    "verdicts::under_any_import",
    "verdicts::under_small_limits",
]
WANT = re.compile(rb"\b(OutOfMemory|AllocError)\b")

# A test, how often it ended in each way, and its first bad end.
Tried = Tuple[str, Counter[str], Optional[str]]


def ending(ran: program.Ran) -> Optional[str]:
    """How a test ended, or None if that is not allowed."""
    if ran.status == 0:
        return "passed"
    found = WANT.search(ran.out + ran.err)
    return found[0].decode() if found else None


def tried(task: Tuple[pathlib.Path, str]) -> Tried:
    """Refuses each allocation of a test in turn. Counts how it ended, and returns the first bad
    end.
    """
    library, test = task
    refuser = refusing.Refuser(library)
    runner = program.Runner(PROGRAM, SECONDS)
    counts: Counter[str] = collections.Counter()
    for first in itertools.count(1):
        ran = runner.run([test], refuser.environment("memory", first))
        said = ending(ran)
        if not refuser.has_refused():
            break
        if not said:
            return test, counts, f"allocation {first} refused: {ran}"
        counts[said] += 1
    return test, counts, None if counts and ran.status == 0 else f"nothing refused: {ran}"


def tries(library: pathlib.Path, jobs: int) -> Tuple[int, int]:
    """Runs the tests in parallel, and prints a line for each as it ends, up to the first bad one.
    """
    passed = 0
    tasks = [(library, test) for test in TESTS]
    for test, counts, wrong in progress.results_of(tried, tasks, "tests", jobs):
        total = sum(counts.values())
        passed += total
        told = "; ".join(f"{count} {said}" for said, count in counts.most_common())
        print(f"{test}: {total} cases: {told}", flush=True)
        if wrong:
            print(f"failed: {test}, {wrong}")
            return passed, 1
    return passed, 0


def main() -> int:
    words = argparse.ArgumentParser(description=__doc__.splitlines()[0])
    words.add_argument(
        "--jobs", type=int, default=len(os.sched_getaffinity(0)), help="parallel processes"
    )
    asked = words.parse_args()
    program.require(PROGRAM)
    with tempfile.TemporaryDirectory(prefix="refuse-") as folder:
        library = refusing.built(folder)
        passed, failed = tries(library, asked.jobs) if library else (0, 1)
    print(f"{passed} passed, {failed} failed")
    return 1 if failed else 0


if __name__ == "__main__":
    sys.exit(main())

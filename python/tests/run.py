"""Runs the tests beside this file, each file in a process of its own. The last line counts them."""

import argparse
import concurrent.futures
import faulthandler
import os
import pathlib
import re
import subprocess
import sys
import tempfile
import unittest

HERE = pathlib.Path(__file__).resolve().parent
# Several at a time, so that a wait costs little, and few, so that what is timed isn't disturbed.
TOGETHER = min(4, os.cpu_count() or 1)
# After so many seconds a file's tests hang: they end, and say where.
LONGEST = 1800


class Result(unittest.TextTestResult):
    """Counts what passed."""

    passed = 0

    def addSuccess(self, test):
        super().addSuccess(test)
        self.passed += 1


def run_alone(name, patterns):
    """Runs the tests of a file."""
    loader = unittest.TestLoader()
    if patterns:
        loader.testNamePatterns = [it if "*" in it else f"*{it}*" for it in patterns]
    suite = loader.discover(str(HERE), name)
    result = unittest.TextTestRunner(verbosity=2, resultclass=Result).run(suite)
    for test, reason in result.skipped:
        print(f"skipped: {test.id()}: {reason}")
    failures = result.failures + result.errors
    for test, trace in failures:
        # The last line says what went wrong.
        print(f"failed: {test.id()}: {trace.strip().splitlines()[-1][:500]}")
    print(f"{result.passed} passed, {len(failures)} failed, {len(result.skipped)} skipped")
    return 1 if failures else 0


def said_of(name, patterns):
    """What a file's tests print, and their counts: passed, failed, skipped."""
    words = [sys.executable, __file__, "--file", name]
    for pattern in patterns:
        words += ["-k", pattern]
    # (no pipe, which what a test left behind would hold open)
    with tempfile.TemporaryFile("w+", encoding="utf-8", errors="replace") as output:
        both = {"stdout": output, "stderr": subprocess.STDOUT}
        status = subprocess.run(words, stdin=subprocess.DEVNULL, **both).returncode
        output.seek(0)
        text = output.read()
    printed, _, last = text.rstrip("\n").rpartition("\n")
    counts = re.fullmatch(r"(\d+) passed, (\d+) failed, (\d+) skipped", last)
    if counts is None:
        return f"{text}\nfailed: {name} ended with status {status}", (0, 1, 0)
    return printed, tuple(map(int, counts.groups()))


def main():
    parser = argparse.ArgumentParser(description=__doc__)
    parser.add_argument(
        "-k", action="append", metavar="PATTERN", default=[], help="tests with this in their names"
    )
    parser.add_argument("--file", metavar="NAME", help="the tests of this file, in this process")
    asked = parser.parse_args()
    if asked.file:
        faulthandler.dump_traceback_later(LONGEST, exit=True)
        return run_alone(asked.file, asked.k)
    names = sorted(path.name for path in HERE.glob("test_*.py"))
    sums = (0, 0, 0)
    with concurrent.futures.ThreadPoolExecutor(TOGETHER) as pool:
        for printed, counts in pool.map(lambda name: said_of(name, asked.k), names):
            print(printed, flush=True)
            sums = tuple(map(sum, zip(sums, counts)))
    print("{} passed, {} failed, {} skipped".format(*sums))
    return 0 if sums[1] == 0 and sums[0] > 0 else 1


if __name__ == "__main__":  # (a process that a test spawns reads this file again)
    sys.exit(main())

"""Runs tests of CPython with or without a guard that permits what they import.

    python honest_suites.py HOW FOLDER NAME...

HOW is `without`, which notes the imports in the folder; `first`, where the guard is installed
before the tests are imported, `last`, after, or `reporting`, where it enforces nothing. A name is
one of a module in the package `test`; `-NAME` leaves tests out, `=NAME` takes a class alone. Writes
what came of each test into the folder.
"""

import io
import json
import os
import sys
import unittest
from pathlib import Path

IMPORTS = "imports"


class Result(unittest.TestResult):
    """What came of each test."""

    def __init__(self):
        super().__init__()
        self.found = {}

    def _note(self, test, word):
        self.found[getattr(test, "test_case", test).id()] = word

    def addSuccess(self, test):
        self._note(test, "passed")

    def addError(self, test, error):
        self._note(test, self._exc_info_to_string(error, test))

    addFailure = addError

    def addSubTest(self, test, subtest, error):
        if error is not None:
            self._note(test, self._exc_info_to_string(error, test))

    def addSkip(self, test, reason):
        self._note(test, "skipped")


def note_imports(file):
    """Writes each import of a reader of this process, and of those that it forks, into a file."""
    opened, seen = os.open(str(file), os.O_CREAT | os.O_APPEND | os.O_WRONLY), set()

    def note(event, words):
        if event == "pickle.find_class" and words not in seen:
            seen.add(words)
            os.write(opened, json.dumps(words).encode() + b"\n")

    sys.addaudithook(note)


def install(file, enforce):
    import storklocker
    from storklocker import _names
    from storklocker._limits import NO_COSTS
    from storklocker._meant import EVERYTHING

    pairs = {tuple(json.loads(line)) for line in file.read_text().splitlines()}
    pairs = {pair for pair in pairs if all(isinstance(it, str) and it for it in pair)}
    pairs = sorted(pairs | {_names.renamed(pair) for pair in pairs})
    meant = [".".join(pair) for pair in EVERYTHING.intersection(pairs)]
    guard = storklocker.Guard(
        storklocker.AllowList(pairs, dangerous=meant),
        limits=storklocker.Limits(**NO_COSTS),
        fix_imports=True,
        build="any",
        enforce=enforce,
    )
    storklocker.install(guard)


def tests_in(suite):
    for it in suite:
        if isinstance(it, unittest.TestSuite):
            yield from tests_in(it)
        else:
            yield it


def main():
    how, folder, *names = sys.argv[1:]
    file = Path(folder, IMPORTS)
    if how == "without":
        note_imports(file)
    elif how != "last":
        install(file, how == "first")
    import logging

    logging.disable(logging.CRITICAL)
    suite = unittest.defaultTestLoader.loadTestsFromNames(
        ["test." + name for name in names if name[0] not in "-="]
    )
    if how == "last":
        install(file, True)
    left, alone = ({name[1:] for name in names if name[0] == mark} for mark in "-=")
    chosen = [it for it in tests_in(suite) if left.isdisjoint(it.id().split("."))]
    chosen = [it for it in chosen if not alone or type(it).__name__ in alone]
    result, shown = Result(), sys.stdout
    sys.stdout = io.StringIO()
    unittest.TestSuite(chosen).run(result)
    sys.stdout = shown
    Path(folder, how).write_text(json.dumps(result.found))


if __name__ == "__main__":  # (a process that a test spawns reads this file again)
    main()

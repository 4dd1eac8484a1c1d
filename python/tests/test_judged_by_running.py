"""`storklocker judge` sees the harm that names do. A share of the names of the catalogue is tried
again: no row says less of one than is seen.
"""

import contextlib
import hashlib
import io
import json
import os
import random
import subprocess
import sys
import tempfile
import unittest
from pathlib import Path

from common import IMPORTED_FROM, PYTHON
from harm import is_here, split
from storklocker.judge import command
from storklocker.judge.derived import is_derived
from storklocker.scanning.command import main
from storklocker.scanning.dangers import import_findings, known
from storklocker.scanning.known import HARMLESS

sys.path.append(str(PYTHON / "catalogue"))
import rows as catalogue  # noqa: E402

SHARE = 6
"""How many of the names are tried again, chosen by what they are: all of them with EVERY."""
EVERY = "STORKLOCKER_EVERY_NAME" in os.environ
SECONDS = "0.3"
"""What a call may take: those that take more aren't told from others here."""
MILD = {"slow", "grows", "ends", "keeps"}
"""What a name may do that is called harmless: a guard has limits for it."""
SHOP = """
import enum, os

KEPT = []

class Order:
    def __init__(self, number=1):
        self.number = number

class Ruled:
    def __setstate__(self, state):
        eval(state["rule"])

class Shown:
    def __repr__(self):
        os.system(self.command)
        return ""

class Kept:
    def __init__(self, value):
        KEPT.append(value)

def called(function):
    return function()

def written(name):
    open(name, "w")

def connected(host):
    import socket
    socket.create_connection((host, 80))

def ended():
    os.abort()
"""
SEEN = {"Order": set(), "Ruled": {"code"}, "Shown": {"command"}, "Kept": {"keeps"},
        "called": {"call"}, "written": {"write"}, "connected": {"network"}, "ended": {"ends"}}
"""What each of these does."""
OF_LIBRARY = {
    "os.system": "command", "builtins.eval": "code", "builtins.__import__": "import",
    "pickle.loads": "pickle", "os.remove": "write", "sys.exit": "process",
    "typing.get_type_hints": "code",
}


def judged(*names):
    """What the command sees of names: a row each."""
    ran = subprocess.run(
        [sys.executable, "-W", "ignore", "-m", "storklocker", "judge", "--format", "json",
         "--seconds", SECONDS, *names],
        encoding="utf-8", stdout=subprocess.PIPE, stderr=subprocess.DEVNULL,
        env={**os.environ, "PYTHONPATH": os.pathsep.join((str(IMPORTED_FROM), os.getcwd())),
             "PYTHONDONTWRITEBYTECODE": "1"},
    )
    return {row["name"]: row for row in json.loads(ran.stdout)["names"]}


def asked(dotted):
    """A name as the command takes it."""
    return ":".join(split(dotted))


def harm_in(row):
    """The words of what a name was seen to do, beside what all may do."""
    return {seen["what"] for seen in row["seen"]} - MILD


@unittest.skipUnless(hasattr(os, "fork"), "children are forked")
@unittest.skipIf(sys.implementation.name == "pypy", "PyPy tells its audit hooks other things")
class Running(unittest.TestCase):
    def test_what_does_harm_is_seen(self):
        with tempfile.TemporaryDirectory() as folder:
            Path(folder, "shop.py").write_text(SHOP, encoding="utf-8")
            before = os.getcwd()
            os.chdir(folder)
            try:
                rows = judged("shop")
            finally:
                os.chdir(before)
            self.assertEqual([it.name for it in Path(folder).iterdir()], ["shop.py"])
        self.assertEqual(sorted(rows), sorted(f"shop.{name}" for name in SEEN))
        for name, words in SEEN.items():
            found = rows[f"shop.{name}"]
            self.assertLessEqual(words, {seen["what"] for seen in found["seen"]}, found)
            self.assertGreater(found["tried"], 50)
            if name == "Order":
                self.assertEqual(found["seen"], [])

    def test_what_the_library_does_is_seen(self):
        rows = judged(*map(asked, OF_LIBRARY))
        for name, word in OF_LIBRARY.items():
            self.assertIn(word, harm_in(rows[name]), name)

    def test_no_row_says_less_than_is_seen(self):
        held = catalogue.rows()
        names = sorted(name for name, row in held.items()
                       if row.by in ("run", "derived") and not row.example)
        self.assertGreater(len(names), 1000)
        chosen = random.Random(hashlib.sha256(" ".join(names).encode()).hexdigest())
        chosen.shuffle(names)
        here = (name for name in names if is_here(name))
        tried = list(here) if EVERY else [next(here) for _ in range(SHARE)]
        for name, row in judged(*map(asked, tried)).items():
            self.assertEqual(held[name].does, "nothing", name)
            self.assertEqual(harm_in(row), set(), row)
            if held[name].by == "derived" and held[name].does == "nothing":
                self.assertTrue(row["kind"].startswith("class"), row)


class Words(unittest.TestCase):
    def test_the_harmless_are_no_findings(self):
        rows = known().rows.items()
        names = [name for name, row in rows if row.severity == HARMLESS and row.why != "read"]
        for name in names:
            self.assertEqual(import_findings([tuple(name.rsplit(".", 1))]), [], name)

    def test_what_cannot_be_tried(self):
        for name in ("nothing.of.this", "json:nothing", "this_is_no_module:f"):
            with contextlib.redirect_stderr(io.StringIO()) as said:
                ran = subprocess.run(
                    [sys.executable, "-m", "storklocker", "judge", name], stderr=subprocess.PIPE,
                    encoding="utf-8", env={**os.environ, "PYTHONPATH": str(IMPORTED_FROM)})
            self.assertEqual(ran.returncode, 2, said.getvalue())
            self.assertIn(name.partition(":")[0], ran.stderr)

    def test_the_help_says_that_it_runs_code(self):
        with contextlib.redirect_stdout(io.StringIO()) as said, self.assertRaises(SystemExit):
            main(["judge", "--help"])
        self.assertIn("RUNS ITS CODE", said.getvalue())
        self.assertNotRegex(said.getvalue() + command.__doc__, r"\bsafe\b")

    def test_classes_of_built_in_methods(self):
        class Plain:
            value = 1

        class Hashed(Plain):
            def __hash__(self):
                return 1

        self.assertEqual(list(map(is_derived, (Plain, Hashed, len, int))),
                         [True, False, False, True])


if __name__ == "__main__":
    unittest.main()

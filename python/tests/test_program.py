"""The commands of `storklocker` beside those of the program."""

import _compat_pickle
import io
import os
import pathlib
import pickle
import re
import resource
import subprocess
import sys
import tempfile
import unittest
import unittest.mock
from collections import OrderedDict

import test_scanning
from common import ITS_PROGRAM, PROGRAM, ROOT, SEEDS, needs
from storklocker.scanning import program
from storklocker.scanning.command import main

PICKLES = sorted((ROOT / "examples" / "pickles").glob("*.pickle"))
LIST = ROOT / "examples" / "lists" / "ordered-dict.toml"
LONG = pickle.dumps(list(range(100_000)), 4)
ODD = {
    "twice": b"cos\nsystem\n0cos\nsystem\n.",
    "called": b"cos\nsystem\n(Vtrue\ntR.",
    "broken": b"cos\nsystem\n(Vtrue\ntR0.",
    "quoted": b'\x80\x04\x8c\x04\xc3\xa9"m\x8c\x03x\x01\\\x93.',
    "cut": pickle.dumps(list(range(300)), 4)[:-1],
    "row": 3 * pickle.dumps(OrderedDict(a=1), 4) + pickle.dumps([], 4),
    "text": b"import os\n",
    "text behind": b"].Q",
    "picture": b"\x89PNG\r\n\x1a\n\0\0\0\rIHDR",
    "zeros": bytes(300),
    "marks": b"(" * 5000 + b"...",
    **{f"seed {place}": data for place, data in enumerate(SEEDS)},
}
DIFFERING = {
    ("imports", "large-count"): "the program's doesn't skip payloads",
    ("imports", "pop-after-stop"): "what is behind the pickle is told too",
    ("check", "pop-after-stop"): "what is behind the pickle is told too",
}


def status_of(ended):
    return -os.WTERMSIG(ended) if os.WIFSIGNALED(ended) else os.WEXITSTATUS(ended)


def storklocker_says(*words, before=None):
    """What a command says in a process of its own: its status, output and errors."""
    with tempfile.TemporaryFile() as out, tempfile.TemporaryFile() as err:
        child = os.fork()
        if not child:
            status = 99
            try:
                os.dup2(out.fileno(), 1)
                os.dup2(err.fileno(), 2)
                sys.stderr = open(2, "w", closefd=False)
                if before is not None:
                    before()
                status = main([str(word) for word in words])
                sys.stderr.flush()
            finally:
                os._exit(status)
        status = status_of(os.waitpid(child, 0)[1])
        out.seek(0), err.seek(0)
        return status, out.read().decode(), err.read().decode()


def program_says(*words, before=None):
    """What the program says, under the other's name."""
    words = [PROGRAM, *map(str, words)]
    ran = subprocess.run(words, capture_output=True, preexec_fn=before)
    both = (it.decode() for it in (ran.stdout, ran.stderr))
    out, err = (it.replace("Usage: pktool", "Usage: storklocker") for it in both)
    return ran.returncode, out, err


def as_today(line):
    """A line of the program's `imports`, by the names of Python 3."""
    found = re.fullmatch('"(.*)" "(.*)"', line)
    if found is None:
        return line
    pair = _compat_pickle.NAME_MAPPING.get(found.groups())
    module, name = pair or (_compat_pickle.IMPORT_MAPPING.get(found[1], found[1]), found[2])
    return f'"{module}" "{name}"'


class Program(unittest.TestCase):
    setUp = test_scanning.Scanning.setUp
    put = test_scanning.Scanning.put
    run_command = test_scanning.Scanning.run_command

    def files(self):
        """Honest and hostile files, by their names."""
        for name, data in ODD.items():
            yield name, pathlib.Path(self.put(name, data))
        for path in PICKLES:
            yield path.stem, path

    @needs(ITS_PROGRAM)
    def test_its_own_commands(self):
        made = self.folder / "made"
        for name, path in self.files():
            for words in (("dis", path), ("json", path), ("optimize", path, made)):
                with self.subTest(command=words[0], name=name):
                    theirs = program_says(*words)
                    content = made.read_bytes() if made.exists() else b""
                    self.assertEqual(storklocker_says(*words), theirs)
                    self.assertEqual(made.read_bytes() if made.exists() else b"", content)

    @needs(ITS_PROGRAM)
    def test_its_help_and_faults(self):
        for command in program.COMMANDS:
            for words in ((), ("--help",), ("-h",), ("/none",), ("--all", "a"), ("a", "b", "c")):
                with self.subTest(command=command, words=words):
                    self.assertEqual(
                        storklocker_says(command, *words), program_says(command, *words)
                    )
        self.assertIn("Usage: storklocker dis <FILE>", storklocker_says("dis", "--help")[1])

    @needs(ITS_PROGRAM)
    def test_its_ends(self):
        path, made = self.put("long", LONG), self.folder / "made"
        readable, closed = os.pipe()
        os.close(readable)
        self.addCleanup(os.close, closed)

        def limits_files():
            resource.setrlimit(resource.RLIMIT_FSIZE, (1024, 1024))

        for before, *words in (
            (lambda: os.dup2(closed, 1), "dis", path),
            (lambda: os.close(1), "dis", path),
            (lambda: os.close(1), "optimize", path, made),
            (limits_files, "optimize", path, made),
        ):
            mine = storklocker_says(*words, before=before)
            self.assertEqual(mine, program_says(*words, before=before), words)
            self.assertNotEqual(mine[0], 0)

    def test_without_the_program(self):
        for place, why in (
            (self.folder / "none", "this package has none"),
            (pathlib.Path(self.put("unexecutable", LONG)), "it isn't executable"),
            (self.folder, "it isn't executable"),
            (pathlib.Path(self.list) / "in a file", "this package has none"),
        ):
            with unittest.mock.patch.object(program, "PROGRAM", place):
                status, out, err = storklocker_says("dis", self.list)
            self.assertEqual((status, out), (2, ""))
            self.assertTrue(err.startswith(f"storklocker: cannot run {place}: {why}"), err)

    def test_check_and_imports(self):
        for name, path in self.files():
            with self.subTest(name=name):
                whole = program_says("check", "--all", "--allow", LIST, path)
                theirs = program_says("check", "--allow", LIST, path)
                mine = self.answer("check", "--allow", LIST, path)
                if ("check", name) not in DIFFERING:
                    self.assertIn((*mine, ""), (theirs, whole))
                found = self.answer("imports", path)
                if mine[0] == 0:
                    self.assertEqual(found[1].splitlines()[-1], mine[1].splitlines()[-1])
                if ("imports", name) not in DIFFERING:
                    self.compare_imports(found, program_says("imports", path), whole)

    def test_numbers_of_many(self):
        """Values of a store, of which most are told together."""
        written = io.BytesIO()
        pickler = pickle.Pickler(written, 4)
        pickler.fast = True  # it imports a name as often as it meets it
        pickler.dump([OrderedDict, OrderedDict])
        data = written.getvalue()
        theirs = program_says("imports", self.put("value", data))[1].splitlines()[-1]
        self.assertEqual(theirs, f"yes: {len(data)} bytes, 2 imports")
        members = ((f"value {number}", data) for number in range(100))
        _, out = self.run_command("imports", self.put("store", test_scanning.zipped(*members)))
        found = re.findall(r"yes: (\d+) bytes, (\d+) imports", out)
        self.assertLess(len(found), 100)
        self.assertEqual(
            [sum(map(int, column)) for column in zip(*found)], [100 * len(data), 200]
        )

    def answer(self, *words):
        """What the package's command answers, without a hint."""
        status, out = self.run_command(*words)
        return status, re.sub(r"(?m)^(no .*?) \([a-z].*\)$", r"\1", out)

    def compare_imports(self, mine, theirs, whole):
        """The program lists imports as often as they are made, and none of a refused pickle; it
        reads the first of several pickles.
        """
        status, out, _ = theirs
        *names, line = mine[1].splitlines()
        last = whole[1].splitlines()[-1]
        if "pickle" in line:
            self.assertEqual((mine[0], line), (whole[0], last))
            return
        self.assertEqual((mine[0], line), (status, out.splitlines()[-1]))
        if status == 0:
            self.assertEqual(names, list(dict.fromkeys(map(as_today, out.splitlines()[:-1]))))
        self.assertEqual(len(names), len(set(names)))


if __name__ == "__main__":
    unittest.main()

"""The extension module under sanitizers, with each of its allocations refused in turn."""

import os
import shutil
import subprocess
import sys
import tempfile
import unittest
from pathlib import Path

from common import ARCHIVE, COMPILER, INCLUDE, PACKAGE, PYTHON, needs

SANITIZED = r"""
import ctypes, sys
import storklocker
from storklocker import _storklocker
assert _storklocker.__file__.startswith(sys.argv[1]), _storklocker.__file__
library = ctypes.CDLL(_storklocker.__file__)
library.are_left.restype = ctypes.c_long
library.grant.argtypes = [ctypes.c_long]
import common

LONG = b"\x8c\x01m\x8d" + (600).to_bytes(8, "little") + 600 * b"n" + b"\x93."
CALLS = {
    "accepted": lambda: storklocker.check(common.SEEDS[10], common.BY_PAIRS),
    "refused": lambda: storklocker.check(b"cos\nsystem\n.", common.BY_PAIRS),
    "long names": lambda: storklocker.check(LONG, common.BY_PAIRS),
    "row": lambda: storklocker.check_row(common.SEEDS[10] * 3 + b"0", common.BY_PAIRS),
    "list": lambda: storklocker.AllowList.from_text(common.LIST_TEXT),
    "load": lambda: storklocker.loads(common.SEEDS[10], common.BY_PAIRS),
    "imports": lambda: storklocker.imports(common.SEEDS[10]),
    "missing": lambda: storklocker.check(b"cos\nsystem\n.", common.BY_PAIRS).missing,
}

def answer(call):
    try:
        return call()
    except storklocker.Refused as refused:
        return refused.verdict

for name, call in CALLS.items():
    wanted, count, wants = answer(call), 0, 0
    while True:
        library.grant(count)
        try:
            same = answer(call) == wanted
        except MemoryError:
            same, wants = True, wants + 1
        was_refused = library.are_left() == -1
        assert library.are_left() in (0, -1), (name, count)
        library.grant(-1)
        assert same, (name, count)
        if not was_refused:
            break
        count += 1
    assert wants > 0, name
    print(f"{name}: {count} allocations, {wants} answered MemoryError")

ROLE = 3 << 10
NAMED = b"](" + b"NNb0" * 9 + b"}K\1ca\nb\ns0" + b"ca\nb\n" * 5 + b"e."
CALLS["uses"] = lambda: _storklocker.uses(
    _storklocker.begin_uses(), NAMED, 0, lambda *it: 1 + ROLE, True
)
assert CALLS["uses"]()[1], "it is followed to its end"
import argparse, collections, pickle
JUDGED = pickle.dumps([collections.OrderedDict(a=1), argparse.Namespace(a=1)], 4)
JUDGING = storklocker.Guard(storklocker.AllowList([collections.OrderedDict, argparse.Namespace]))
CALLS["judged"] = lambda: JUDGING.loads(JUDGED)
CALLS["found"] = lambda: [
    _storklocker.begun(b"\x80\4N.", bytes(8 * 257), [1], [2]),
    _storklocker.runs(b"abc", bytes(range(256)), 2, [], []),
    _storklocker.blanked(b"abc", 0, [1], [2]),
    _storklocker.joined(b"abc", [0, 2], [1, 3]),
    _storklocker.wholes(b"\x80\4N.", [0], 0, 9, 9),
    _storklocker.cells(b"\0\x04\0\0\2\2\0\0", bytes(256), 0, 1, 9, False),
]
assert CALLS["judged"]() == CALLS["judged"]() == [{"a": 1}, argparse.Namespace(a=1)]
try:
    from _testcapi import set_nomemory, remove_mem_hooks
except ImportError:
    print("no _testcapi: Python's own memory is not refused")
    CALLS.clear()
if sys.version_info[:3] == (3, 13, 0):
    print("where its memory is refused, this version frees constants that plain Python uses")
    CALLS.clear()
for name, call in CALLS.items():
    for count in range(60):
        set_nomemory(count, count + 1)
        try:
            answer(call)
        except MemoryError:
            pass
        finally:
            remove_mem_hooks()
    print(f"{name}: Python's memory refused")
"""


@needs(COMPILER, ARCHIVE, INCLUDE)
class Sanitized(unittest.TestCase):
    @classmethod
    def setUpClass(cls):
        cls.folder = tempfile.TemporaryDirectory()
        cls.package = Path(cls.folder.name, "storklocker")
        without = shutil.ignore_patterns("*.so", "__pycache__")
        shutil.copytree(PACKAGE, cls.package, ignore=without)
        words = [str(PYTHON / "make"), "--debug", "--archive", ARCHIVE, "--out", str(cls.package)]
        subprocess.run(words, check=True)
        found = [
            subprocess.run(
                [*COMPILER.split(), f"-print-file-name={name}"], capture_output=True, text=True
            ).stdout.strip()
            for name in ("libasan.so", "libubsan.so")
        ]
        cls.environment = {
            **os.environ,
            "LD_PRELOAD": " ".join(found),
            "ASAN_OPTIONS": "detect_leaks=0:allocator_may_return_null=1",
            "PYTHONPATH": os.pathsep.join([cls.folder.name, str(PYTHON / "tests")]),
            "PYTHONMALLOC": "malloc",
            "PYTHONDONTWRITEBYTECODE": "1",
        }

    @classmethod
    def tearDownClass(cls):
        cls.folder.cleanup()

    def ran(self, *words):
        ran = subprocess.run(
            [sys.executable, *words],
            capture_output=True,
            text=True,
            env=self.environment,
            cwd=PYTHON / "tests",
        )
        self.assertEqual(ran.returncode, 0, ran.stdout[-2000:] + ran.stderr[-4000:])
        return ran.stdout

    def test_each_allocation_refused_in_turn(self):
        said = self.ran("-c", SANITIZED, self.folder.name)
        self.assertGreaterEqual(said.count("answered MemoryError"), 6)

    def test_values_and_guards(self):
        self.ran(
            "-m",
            "unittest",
            "-q",
            "test_values.Lists",
            "test_values.Copies",
            "test_guard.Loads",
            "test_guarded_files.Files",
            "test_loads.Memory",
            "test_joblib_files.Hastened",
            "test_judging",
            "test_builds",
            "test_uses",
            "test_walk",
        )


if __name__ == "__main__":
    sys.exit(unittest.main())

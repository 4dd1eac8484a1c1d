"""Where things are, and what several tests use."""

import collections
import datetime
import importlib.util
import multiprocessing
import os
import pathlib
import pickle
import shutil
import subprocess
import sys
import sysconfig
import unittest

import storklocker

ROOT = pathlib.Path(__file__).resolve().parents[2]
PYTHON = ROOT / "python"
PACKAGE = PYTHON / "storklocker"
GUARD = ROOT / "crates" / "pkguard"
INCLUDE = os.path.join(sysconfig.get_path("include"), "Python.h")
ARCHIVE = os.environ.get("STORKLOCKER_ARCHIVE", str(GUARD / "out" / "libpkguard.a"))
PROGRAM = os.environ.get("PKTOOL", str(ROOT / "pktool"))
COMPILER = os.environ.get("CC", "cc")
IMPORTED_FROM = pathlib.Path(storklocker.__file__).resolve().parents[1]
ITS_PROGRAM = str(IMPORTED_FROM / "storklocker" / "pktool")

LIST_TEXT = (
    b"version = 1\n[imports]\n" b'collections = ["OrderedDict", "deque"]\ndatetime = ["datetime"]\n'
)
LISTED = [("collections", "OrderedDict"), ("collections", "deque"), ("datetime", "datetime")]
BY_PAIRS = storklocker.AllowList(LISTED)
BY_TEXT = storklocker.AllowList.from_text(LIST_TEXT)

OBJECTS = [
    [1, 2.5, "a", b"b", None, {"k": (1,)}],
    collections.OrderedDict(a=1),
    collections.deque([1, 2]),
    datetime.datetime(2026, 1, 2),
    {1, 2},
    print,
    collections.Counter("aab"),
]
SEEDS = [pickle.dumps(value, protocol) for value in OBJECTS for protocol in range(6)]


def needs(*things):
    """Skips a test where a program, a file, a module (`module:NAME`) or what several processes
    share (`semaphores`) is missing.

    The gate (STORKLOCKER_STRICT) has just built the archive and the program: there they must not be
    missing.
    """
    built = (ARCHIVE, ITS_PROGRAM) if "STORKLOCKER_STRICT" in os.environ else ()
    wanted = [it for it in things if it not in built]
    missing = [it.rpartition(":")[2].rpartition("/")[2] for it in wanted if not _has(it)]
    return unittest.skipIf(missing, f"there is no {', '.join(missing)}")


def _has(thing):
    if thing == "semaphores":
        try:
            return bool(multiprocessing.Semaphore())
        except OSError:  # (/dev/shm isn't mounted)
            return False
    kind, _, name = thing.rpartition(":")
    if kind == "module":
        try:
            return importlib.util.find_spec(name) is not None
        except ModuleNotFoundError:
            return False
    return os.path.exists(thing) or shutil.which(thing.split()[0]) is not None


def has_hash():
    """Whether Django's errors have a hash of their own, for which some are refused."""
    from django.core.exceptions import ValidationError

    return ValidationError.__hash__ is not BaseException.__hash__  # (since 3.2)


def compiled(folder, source, *more):
    """A C program, built in a folder."""
    made = pathlib.Path(folder) / pathlib.Path(source).stem
    words = [COMPILER, "-O2", "-Wall", "-Wextra", "-Werror", f"-I{PACKAGE}", "-o", str(made)]
    subprocess.run([*words, str(source), *more], check=True)
    return str(made)


def python(code, *words, **environment):
    """What a fresh interpreter prints that runs some code."""
    path = os.pathsep.join([str(IMPORTED_FROM), str(pathlib.Path(__file__).parent)])
    ran = subprocess.run(
        [sys.executable, *words, "-c", code],
        capture_output=True,
        text=True,
        env={**os.environ, "PYTHONPATH": path, **environment},
    )
    assert ran.returncode == 0, ran.stderr
    return ran.stdout

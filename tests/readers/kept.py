#!/usr/bin/env python3
"""Compares `storklocker scan` with programs that keep pickles in files of their own: caches,
shelves, databases.

Each gets values from a seed, loads them in a process of its own, which imports nothing unlisted,
and `scan` reads the same files. It fails if a program asks for a name off the list and scan finds
nothing; if that name is dangerous and scan without a list would end with status 0; if no value of a
program asks for anything; and if a row of the table in `docs/SCANNING.md` has no real reader.
Shelves are those of each Python that is here. The last line counts the files.
"""

import argparse
import collections
import json
import logging
import os
import pathlib
import random
import resource
import shutil
import signal
import subprocess
import sys
import tempfile
import time
import warnings

HERE = pathlib.Path(__file__).resolve().parent
PACKAGE = HERE.parents[1] / "python"
sys.path[:0] = [str(HERE), str(PACKAGE / "tests")]
sys.path.append(str(PACKAGE))  # unless PYTHONPATH names another

import keepers  # noqa: E402
import rows  # noqa: E402
import shapes  # noqa: E402
import storklocker  # noqa: E402
from listed import LISTED, may_run  # noqa: E402
from storklocker import AllowList  # noqa: E402
from storklocker.scanning.file import File  # noqa: E402
from storklocker.scanning.judging import Question  # noqa: E402
from storklocker.scanning.one_file import scan_file  # noqa: E402
from storklocker.scanning.severity import DANGER, NOTE, UNREADABLE, WARNING  # noqa: E402
from test_lenient import front  # noqa: E402
from watching import Stopped, Watch  # noqa: E402

IMPORTED_FROM = pathlib.Path(storklocker.__file__).resolve().parents[1]
SECONDS, MEMORY = 5, 1 << 30
IN_MEMORY = "/dev/shm"
"""Where files are in memory, if there is such a folder: libraries wait until a disk has written."""
ENOUGH = 50
"""Of so many values of a program one asks for a name off the list."""
DANGEROUS = (("posix", "system"), ("os", "system"), ("os\0x", "system"), ("builtins", "eval"))
PYTHONS = [f"python3.{minor}" for minor in range(8, 15)]
HIDDEN = b"S'\\x6fs'\nS'\\x73ystem'\n\x93(S'true'\ntR."


def value_of(seed, number):
    """The value with this number: a pickle, mostly a hostile one."""
    chosen = random.Random(f"{seed}-{number}")
    kind = chosen.random()
    if kind < 0.1:
        return chosen.choice(shapes.GOOD)
    data = shapes.evil(chosen) if kind < 0.5 else front(chosen)
    if chosen.random() < 0.2:
        data = chosen.choice((b"\x80\2", b"\x80\4", b"\x80\1", b"(", b"]", b"(l", b"N0")) + data
    if chosen.random() < 0.1:  # an argument that crosses the end of a frame
        fill = bytes(chosen.choice((0, 0, 9_000)))
        inner = b"B" + len(fill).to_bytes(4, "little") + fill + b"0X\xff\xf3"
        data = b"\x80\4\x95" + len(inner).to_bytes(8, "little") + inner + b"\2\0\0\0ab0" + HIDDEN
    return shapes.mutated(data, chosen) if chosen.random() < 0.1 else data


def findings_of(folder, question):
    """What scan finds in the files of a folder."""
    paths = sorted(path for path in folder.rglob("*") if path.is_file())
    reports = [report for path in paths for report in scan_file(File(str(path)), question)]
    return [(report, it) for report in reports for it in report.findings]


def is_counted(keeper, value, pair):
    """Whether a name counts under a list. One that nobody has judged isn't seen in what is looked
    through, unless its pickle has PROTO in front; nor in a text, of any alphabet.
    """
    if pair in DANGEROUS:
        return True
    if not may_run(*pair) or keeper.is_searched and value[:1] != b"\x80":
        return False
    return not is_words(value)


def is_words(value):
    """Whether a value is a printable text."""
    try:
        return all(it.isprintable() or it.isspace() for it in value.decode())
    except UnicodeDecodeError:
        return False


def miss_of(keeper, folder, value, asked):
    """What scan doesn't find of the names that a program asked for; empty if nothing."""
    pairs = [tuple(it[1:]) for it in asked]
    if any(is_counted(keeper, value, it) for it in pairs):
        found = findings_of(folder, Question(AllowList(LISTED)))
        if not any(report.is_finding or it.severity == WARNING for report, it in found):
            return "nothing under a list"
    if any(it in DANGEROUS for it in pairs):
        found = findings_of(folder, Question())
        if not any(it.severity in (DANGER, UNREADABLE, WARNING) for _, it in found):
            return "nothing without a list"
    return ""


def stop(*_):
    raise Stopped


def examine(asked):
    """Has the programs of this Python load values, and prints a line for each."""
    warnings.simplefilter("ignore")
    logging.disable(logging.CRITICAL)
    pages = int(pathlib.Path("/proc/self/statm").read_text().split()[0])
    most = pages * resource.getpagesize() + MEMORY
    watch, here = Watch(), []
    for name, keeper in keepers.keepers():
        if isinstance(keeper, str):
            print(json.dumps([-1, name, keeper, []]), flush=True)
        elif not asked.only or name in asked.only:
            here.append((name, keeper))
    resource.setrlimit(resource.RLIMIT_AS, (most, most))
    signal.signal(signal.SIGALRM, stop)
    sys.addaudithook(watch.hear)
    for number in range(asked.first, asked.first + asked.files):
        name, keeper = here[number % len(here)]
        value = value_of(asked.seed, number)
        with tempfile.TemporaryDirectory() as made:
            folder = pathlib.Path(made, "kept")
            folder.mkdir()
            try:
                keeper.put(folder, value)
            except Exception:  # (a value that it doesn't store)
                continue
            copy = shutil.copytree(folder, pathlib.Path(made, "copy"))
            watch.asked = []
            signal.setitimer(signal.ITIMER_REAL, SECONDS)
            watch.run(name, keeper.load, copy)
            signal.setitimer(signal.ITIMER_REAL, 0)
            print(json.dumps([number, name, miss_of(keeper, folder, value, watch.asked),
                              [it[1:] for it in watch.asked]]), flush=True)


def pythons(named):
    """The other Pythons here that start, and those that are named."""
    yield from named
    for name in PYTHONS:
        path = shutil.which(name)
        words = [path, "-c", "import sys; print(sys.version_info[:2])"]
        done = path and subprocess.run(words, stdout=subprocess.PIPE, stderr=subprocess.PIPE)
        if done and done.returncode == 0 and str(sys.version_info[:2]) not in done.stdout.decode():
            yield path


class Counts:
    """What the programs did."""

    def __init__(self):
        self.passed = self.deaths = 0
        self.failed, self.lacking = [], set()
        self.loaded, self.asked = collections.Counter(), collections.Counter()

    def silent(self):
        """The programs of which no value asked for anything, of many."""
        return [it for it, count in self.loaded.items() if count >= ENOUGH and not self.asked[it]]

    def hear(self, line, python):
        number, name, said, names = line
        if number < 0:
            self.lacking.add((name, said))
            return
        self.loaded[name] += 1
        self.asked[name] += bool(names)
        self.passed += not said
        if said:
            self.failed.append(f"{python}, file {number}, {name}: asks for {names}, {said}")
            print(f"failed: {self.failed[-1]}", flush=True)


def run(python, asked, first, files, over, counts):
    """Has a Python examine some files, and begins again behind one that ends it."""
    while files > 0 and time.monotonic() < over:
        words = [python, str(HERE / "kept.py"), "--examine", "--seed", str(asked.seed)]
        words += ["--first", str(first), "--files", str(files)]
        words += [it for name in asked.only for it in ("--only", name)]
        environment = dict(os.environ, PYTHONPATH=str(IMPORTED_FROM))
        number, heard = first, False
        with subprocess.Popen(
            words, stdout=subprocess.PIPE, stderr=subprocess.DEVNULL, env=environment
        ) as process:
            for line in process.stdout:
                counts.hear(json.loads(line), python)
                heard = True
                number = max(number, json.loads(line)[0])
                if time.monotonic() > over:
                    process.kill()
        if process.returncode == 0 or time.monotonic() > over:
            return
        counts.deaths += 1
        if not heard:
            counts.failed.append(f"{python} doesn't start")
            print(f"failed: {counts.failed[-1]}")
            return
        first, files = number + 2, files - (number + 2 - first)


def words_of():
    parser = argparse.ArgumentParser(description=__doc__.splitlines()[0])
    parser.add_argument("--files", type=int, default=20_000, help="for each Python")
    parser.add_argument("--first", type=int, default=0, help="the number of the first file")
    parser.add_argument("--seed", type=int, default=1)
    parser.add_argument("--seconds", type=int, default=1 << 20, help="after which it ends")
    parser.add_argument("--only", action="append", default=[], help="a program")
    parser.add_argument("--python", action="append", default=[], help="another one")
    parser.add_argument("--examine", action="store_true", help=argparse.SUPPRESS)
    return parser.parse_args()


def main():
    asked = words_of()
    if asked.examine:
        examine(asked)
        return 0
    there = IN_MEMORY if os.access(IN_MEMORY, os.W_OK) else None
    with tempfile.TemporaryDirectory(dir=there) as folder:
        os.environ["TMPDIR"] = folder  # (of the processes below)
        return compare(asked)


def compare(asked):
    """Has each Python examine values, and prints the counts. Returns the status."""
    counts, others = Counts(), list(pythons(asked.python))
    begun = time.monotonic()
    run(sys.executable, asked, asked.first, asked.files, begun + asked.seconds * 3 / 4, counts)
    for number, python in enumerate(others):
        over = begun + asked.seconds * (3 + (number + 1) / len(others)) / 4
        run(python, asked, asked.first, asked.files, over, counts)
    missing = {name: why for name, why in counts.lacking if not counts.loaded[name]}
    for name, why in sorted(missing.items()):
        print(f"skipped: {name}: {why}")
    for name, count in sorted(counts.loaded.items()):
        print(f"{name}: {count:,} values, {counts.asked[name]:,} ask for a name off the list")
    print(f"Pythons: {1 + len(others)}; {counts.deaths} values ended a process")
    faults = list(rows.faults())
    faults += [f"{it} asks for nothing" for it in counts.silent()]
    for fault in faults:
        print(f"failed: {fault}")
    failed = len(counts.failed) + len(faults)
    print(f"{counts.passed} passed, {failed} failed, {len(missing)} skipped")
    return 0 if not failed and counts.passed else 1


if __name__ == "__main__":
    sys.exit(main())

#!/usr/bin/env python3
"""Compares `storklocker scan` with the readers that people use, on files made from a seed.

Each file goes to the real readers in a process of its own (`real.py`), which imports nothing
unlisted, and through `scan`. It fails if a reader asks for a name off the list and scan finds
nothing; if that name is dangerous and scan without a list would end with status 0; if a library
wrote the file, and scan finds something; and if a reader never asks for anything. A file that fails
is named by its number and kept in the folder --keep. The last line counts the files. A long run may
be done in parts, by --first and --files.
"""

import argparse
import collections
import functools
import io
import json
import os
import pathlib
import random
import subprocess
import sys
import tempfile
import time

HERE = pathlib.Path(__file__).resolve().parent
PACKAGE = HERE.parents[1] / "python"
sys.path[:0] = [str(HERE), str(HERE.parent)]
sys.path.append(str(PACKAGE))  # unless PYTHONPATH names another

import made_by_libraries  # noqa: E402
import progress  # noqa: E402
import rows  # noqa: E402
import shapes  # noqa: E402
from listed import LISTED, may_run  # noqa: E402
from storklocker import AllowList  # noqa: E402
from storklocker.scanning.judging import Question, reports_of  # noqa: E402
from storklocker.scanning.severity import DANGER, UNREADABLE  # noqa: E402

CHUNK, AHEAD = 500, 50
QUESTION = Question(AllowList(LISTED))
DANGEROUS = (["posix", "system"], ["os\0x", "system"], ["builtins", "eval"])


class Reader:
    """The process of the real readers. It is begun again when a file kills it."""

    def __init__(self):
        self.deaths = 0
        self._begin()

    def _begin(self):
        words = [sys.executable, str(HERE / "real.py")]
        self._process = subprocess.Popen(
            words, stdin=subprocess.PIPE, stdout=subprocess.PIPE, stderr=subprocess.DEVNULL
        )

    def send(self, files):
        """Hands over files."""
        try:
            for data in files:
                self._process.stdin.write(len(data).to_bytes(8, "little") + data)
            self._process.stdin.flush()
        except BrokenPipeError:
            pass

    def answers(self, files):
        """What the readers asked for in each of the files that were handed over."""
        found = []
        while len(found) < len(files):
            line = self._process.stdout.readline()
            if line:
                found.append(json.loads(line))
                continue
            self._process.wait()
            self.deaths += 1
            self._begin()
            found.append([])
            self.send(files[len(found):])
        return found


def file_of(seed, number):
    """The file with this number."""
    return shapes.any_file(random.Random(f"{seed}-{number}"))


def is_found(data):
    """Whether scan finds something."""
    return any(report.is_finding for report in reports_of("file", io.BytesIO(data), QUESTION))


def is_told(data):
    """Whether scan without a list ends with another status than 0."""
    found = reports_of("file", io.BytesIO(data), Question())
    return any(it.severity in (DANGER, UNREADABLE) for report in found for it in report.findings)


def asked_in(answer):
    """The readers that asked for a name of a module that may be there. (Python finds frozen ones by
    what stands in front of a NUL.)
    """
    return sorted({it[0] for it in answer if may_run(*it[1:3])})


@functools.lru_cache(maxsize=None)
def reader_here():
    """The real readers of this process. To begin them takes seconds."""
    return Reader()


def compared(job):
    """The misses among some files, and how often each reader asked."""
    seed, first, last = job
    reader, misses, asked = reader_here(), [], collections.Counter()
    deaths = reader.deaths
    for start in range(first, last, AHEAD):
        files = [file_of(seed, number) for number in range(start, min(start + AHEAD, last))]
        reader.send(files)
        found = [is_found(data) for data in files]
        for place, answer in enumerate(reader.answers(files)):
            names = asked_in(answer)
            asked.update(names)
            is_dangerous = any(it[1:] in DANGEROUS for it in answer)
            if names and not found[place] or is_dangerous and not is_told(files[place]):
                misses.append((start + place, names, files[place]))
    return last - first, misses, asked, reader.deaths - deaths


def alarms(keep):
    """Counts the files of libraries with and without findings, and tells the latter."""
    passed = failed = 0
    for name, data in made_by_libraries.files():
        reports = list(reports_of(name, io.BytesIO(data), QUESTION))
        findings = [it.why for report in reports for it in report.findings]
        passed, failed = passed + (not findings), failed + bool(findings)
        if findings:
            (keep / name.replace("/", "_").replace(" ", "_")).write_bytes(data)
            print(f"failed: {name}: a false alarm: {findings[0]}")
    print(f"{passed} files of libraries without a finding, {failed} with one")
    return passed, failed


def words_of():
    parser = argparse.ArgumentParser(description=__doc__.splitlines()[0])
    parser.add_argument("--files", type=int, default=100_000)
    parser.add_argument("--first", type=int, default=0, help="the number of the first file")
    parser.add_argument("--seed", type=int, default=1)
    parser.add_argument("--seconds", type=int, default=1 << 20, help="after which it ends")
    parser.add_argument("--jobs", type=int, default=2, help="pairs of processes")
    parser.add_argument("--only", type=int, help="the number of a file to show")
    folder = pathlib.Path(tempfile.gettempdir()) / f"storklocker-readers-{os.getuid()}"
    parser.add_argument("--keep", type=pathlib.Path, default=folder)
    return parser.parse_args()


def main():
    asked = words_of()
    asked.keep.mkdir(parents=True, exist_ok=True)
    if asked.only is not None:
        data = file_of(asked.seed, asked.only)
        (asked.keep / str(asked.only)).write_bytes(data)
        print(f"{asked.keep / str(asked.only)}: found: {is_found(data)}")
        return 0
    passed, failed = alarms(asked.keep)
    readers, deaths = collections.Counter(), 0
    end = asked.first + asked.files
    jobs = [
        (asked.seed, first, min(first + CHUNK, end))
        for first in range(asked.first, end, CHUNK)
    ]
    over = time.monotonic() + asked.seconds
    for count, misses, heard, died in progress.results_of(compared, jobs, "chunks", asked.jobs):
        passed, failed = passed + count - len(misses), failed + len(misses)
        readers, deaths = readers + heard, deaths + died
        for number, names, data in misses:
            (asked.keep / str(number)).write_bytes(data)
            asking = ", ".join(names)
            print(f"failed: file {number}: asked for by {asking}, and not found", flush=True)
        if time.monotonic() > over:
            print(f"the time is over after {passed + failed:,} files")
            break
    told = ", ".join(f"{name} {count:,}" for name, count in readers.most_common())
    print(f"asked for a name off the list: {told}; {deaths} files killed a reader")
    for reader in rows.silent(readers, passed + failed):
        failed += 1
        print(f"failed: {reader} asked for nothing")
    print(f"{passed} passed, {failed} failed")
    return 0 if not failed and passed else 1


if __name__ == "__main__":
    sys.exit(main())

#!/usr/bin/env python3
"""Runs the program on mutated pickles: 100,000 of them, made from a seed.

Each goes through the five commands. Half the checks have options, in turn: how Python 2 strings are
decoded, and a row of the pickle and itself. It fails at a signal, a status above 1, a refused
allocation although memory is plentiful, a CPU time or peak memory above the bound, and if commands
that use the same check disagree. A pickle that fails is named by its number and kept in the folder
--keep. The last line says how many runs passed.
"""
import argparse
import collections
import os
import pathlib
import re
import sys
import tempfile
import time
from typing import Counter, Iterator, List, Optional, Set, Tuple

import mutations
import program
import progress

SECONDS = 1
TRIES = 3
WALL = 20
PEAK = 256 * 10**6
CHUNK = 250
COMMANDS = ("check", "dis", "imports", "optimize", "json")

Options = Tuple[str, ...]
ROW: Options = ("--all",)
OPTIONS: List[Options] = [(), (), (), ("--old-strings", "ascii"), ("--old-strings", "bytes"), ROW]
LIST = """\
version = 1
[imports]
collections = ["OrderedDict", "Counter"]
datetime = ["datetime", "timezone", "timedelta"]
m = ["f"]
"""

# How often a command ended with a status.
Ended = Counter[Tuple[str, int]]
# The number of a pickle, the command, what is wrong, and the pickle.
Failure = Tuple[int, str, str, bytes]


def faults(ran: program.Ran) -> Iterator[str]:
    """What is wrong with a single run."""
    if ran.status not in (0, 1):
        yield f"status {ran.status}"
    if b"OutOfMemory" in ran.out + ran.err:
        yield "out of memory"
    if ran.seconds > SECONDS:
        yield f"{ran.seconds:.2f} s of CPU time"
    if ran.peak > PEAK:
        yield f"{ran.peak / 1e6:.0f} MB"


def verdict(command: str, options: Options, ran: program.Ran) -> Optional[str]:
    """What the check under any import said about the pickle, or None if the command doesn't show
    it.
    """
    if command == "check" and "--old-strings" in options:
        return None
    if ran.status == 0:
        return "yes"
    last = ran.out[ran.out.rfind(b"\n", 0, -1) + 1 :].decode()
    if command == "check" and options == ROW:
        of_first = re.fullmatch(r"no in pickle 0 (at .*)\n", last)
        last = f"no {of_first[1]}" if of_first else "yes"
    if command == "check" and "Import" in last:
        return None
    is_of_export = command == "json" and re.match(r"no: Too|no at \d+: (NotPlain|Key|Number)", last)
    return "yes" if is_of_export else last.strip()


class Bench:
    """A folder with one pickle at a time, where the program runs."""

    def __init__(self) -> None:
        self.runner = program.Runner(program.PROGRAM, WALL)
        # not on a disk, if there is a file system in memory
        memory = "/dev/shm" if os.access("/dev/shm", os.W_OK) else None
        self.folder = tempfile.TemporaryDirectory(prefix="soak-", dir=memory)
        os.chdir(self.folder.name)
        pathlib.Path("list.toml").write_text(LIST)

    def run(self, command: str, options: Options) -> program.Ran:
        """A run. One that seems slow is measured again: among so many, some stall."""
        words = [command, "pickle", *["out"] * (command == "optimize")]
        if command == "check":
            words = ["check", "--allow", "list.toml", *options, "pickle"]
        for _ in range(TRIES):
            ran = self.runner.run(words)
            if ran.seconds <= SECONDS:
                break
        return ran


BENCH: Bench


def soaked(task: Tuple[int, range]) -> Tuple[Ended, float, int, List[Failure]]:
    """Runs a chunk of pickles. Returns the statuses of each command, the greatest time and peak,
    and the failures.
    """
    seed, numbers = task
    ended: Ended
    ended, slowest, peak, failed = collections.Counter(), 0.0, 0, []
    for number in numbers:
        options = OPTIONS[number % len(OPTIONS)]
        pickle = mutations.mutated(seed, number) * (2 if options == ROW else 1)
        with open("pickle", "wb") as file:
            file.write(pickle)
        said: Set[str] = set()
        for command in COMMANDS:
            ran = BENCH.run(command, options)
            ended[command, ran.status] += 1
            slowest, peak = max(slowest, ran.seconds), max(peak, ran.peak)
            wrong = [*faults(ran)]
            told = verdict(command, options, ran) if not wrong else None
            said |= {told} if told is not None else set()
            if len(said) > 1:
                wrong.append(f"the check said {' and '.join(sorted(said))}")
            if wrong:
                failed.append((number, command, ", ".join(wrong), pickle))
    return ended, slowest, peak, failed


def begin() -> None:
    global BENCH
    BENCH = Bench()


def soak(asked: argparse.Namespace) -> Tuple[Ended, int]:
    """Soaks all pickles in parallel. Returns the statuses, and how many runs failed."""
    ended: Ended
    ended, slowest, peak, wrong = collections.Counter(), 0.0, 0, 0
    chunks = [range(at, min(at + CHUNK, asked.pickles)) for at in range(0, asked.pickles, CHUNK)]
    tasks = [(asked.seed, chunk) for chunk in chunks]
    results = progress.results_of(soaked, tasks, "chunks", asked.jobs, begin)
    for counts, took, held, failed in results:
        ended.update(counts)
        slowest, peak, wrong = max(slowest, took), max(peak, held), wrong + len(failed)
        for number, command, why, pickle in failed:
            kept = pathlib.Path(asked.keep, f"soak-{asked.seed}-{number}.pickle")
            kept.write_bytes(pickle)
            print(f"failed: {command} of pickle {number}, in {kept}: {why}", flush=True)
    print(f"slowest run {slowest:.2f} of {SECONDS} s; peak {peak / 1e6:.0f} of {PEAK / 1e6:.0f} MB")
    return ended, wrong


def main() -> int:
    words = argparse.ArgumentParser(description=__doc__.splitlines()[0])
    words.add_argument("--pickles", type=int, default=100_000, help="number of pickles (100,000)")
    words.add_argument("--seed", type=int, default=1, help="seed of the pickles (1)")
    words.add_argument(
        "--jobs", type=int, default=len(os.sched_getaffinity(0)), help="parallel processes"
    )
    words.add_argument("--keep", default=tempfile.gettempdir(), help="folder for pickles that fail")
    asked = words.parse_args()
    program.require(program.PROGRAM)
    started = time.monotonic()
    ended, failed = soak(asked)
    for command in COMMANDS:
        counts = [(status, count) for (it, status), count in sorted(ended.items()) if it == command]
        print(f"{command}:", ", ".join(f"{count} status {status}" for status, count in counts))
    print(f"{asked.pickles} pickles of seed {asked.seed}, {time.monotonic() - started:.0f} s")
    print(f"{sum(ended.values()) - failed} passed, {failed} failed")
    return 1 if failed else 0


if __name__ == "__main__":
    sys.exit(main())

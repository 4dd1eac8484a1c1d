#!/usr/bin/env python3
"""Makes everything fail once: each allocation, each read and each write of each worked row.

The system's C compiler builds refuse.c, which is preloaded into the program. Each call is refused
alone, and then with all later ones. The answer must be the row's usual one or report the failure in
the command's words; the first that does neither ends the script with status 1. With short reads and
writes of one byte the answer must be the usual one. It prints a line per row, and finally how many
cases passed.
"""
import argparse
import collections
import functools
import os
import pathlib
import sys
import tempfile
from typing import Callable, Counter, List, Optional, Set, Tuple

import answers
import program
import progress
import refusing
import rows

SECONDS = 10

# The longest pickle that is read one byte at a time.
MOST_BY_BYTES = 1 << 20

# What is refused, whether with all later calls, and which answers are allowed.
Kind = Tuple[str, bool, Callable[[rows.Row, answers.Answer, answers.Answer], bool]]
KINDS: List[Kind] = [
    ("memory", False, answers.wants_memory),
    ("memory", True, answers.wants_memory),
    ("read", False, answers.failed_read),
    ("read", True, answers.failed_read),
    ("write", False, answers.failed_write),
    ("write", True, answers.failed_writes),
]

# A row, how often each answer came, and the first answer that is not allowed.
Tried = Tuple[rows.Row, Counter[str], Optional[str]]


class Bench:
    """A folder with the files of a row, where the program runs."""

    def __init__(self, library: pathlib.Path) -> None:
        self.refuser = refusing.Refuser(library)
        self.runner = program.Runner(program.PROGRAM, SECONDS)
        self.folder = tempfile.TemporaryDirectory(prefix="failures-")
        os.chdir(self.folder.name)

    def lay(self, row: rows.Row) -> None:
        pathlib.Path(answers.FILE).write_bytes(row.pickle)
        pathlib.Path(answers.LIST).write_text(row.allow or "")

    def run(
        self, row: rows.Row, kind: str = "", first: int = 0, every: bool = False
    ) -> Tuple[answers.Answer, bool]:
        """The answer, and whether anything was refused."""
        pathlib.Path(answers.OUT).write_bytes(answers.BEFORE)
        pathlib.Path(f"{answers.OUT}.partial").unlink(missing_ok=True)
        ran = self.runner.run(words_of(row), self.refuser.environment(kind, first, every))
        result = pathlib.Path(answers.OUT).read_bytes()
        answer = answers.Answer(ran.status, ran.out.decode(), ran.err.decode(), result)
        return answer, self.refuser.has_refused()


BENCH: Bench


def words_of(row: rows.Row) -> List[str]:
    if row.command == "check":
        return ["check", "--allow", answers.LIST, *row.options, answers.FILE]
    return [row.command, answers.FILE, *[answers.OUT] * (row.command == "optimize")]


def own_answer(bench: Bench, row: rows.Row) -> Tuple[answers.Answer, Optional[str]]:
    """The row's usual answer, and what is wrong with it."""
    own, _ = bench.run(row)
    said = own.err if row.status == 2 else own.out
    wanted = (row.status, row.said, row.result or own.result)
    is_right = row.status is None or (own.status, said, own.result) == wanted
    return own, None if is_right else f"with nothing refused: {own}, not {wanted}"


def tried(row: rows.Row) -> Tried:
    """Refuses each call of a row in turn. Counts the answers, and returns the first that is not
    allowed.
    """
    BENCH.lay(row)
    own, wrong = own_answer(BENCH, row)
    counts: Counter[str] = collections.Counter()
    unread: Set[str] = set()
    for kind, every, is_said in KINDS:
        first, was_refused, has_begun = 1, True, False
        while was_refused and not wrong:
            answer, was_refused = BENCH.run(row, kind, first, every)
            which = f"{kind} {first}{' and all after it' if every else ''} refused"
            if was_refused and answer == own:
                counts["its own answer"] += 1
            elif was_refused and is_said(row, own, answer):
                counts[answer.brief()] += 1
                unread |= {answer.out} if kind == "read" else set()
            elif was_refused or answer != own:
                wrong = f"{which}: {answer}, and its own is {own}"
            has_begun |= answer.out == answers.NO_MEMORY
            if has_begun and answers.is_late_fault(own, answer):
                wrong = wrong or f"{which}: {answer}, though nothing was written"
            first += 1
    if row.unread and row.unread not in unread:
        wrong = wrong or f"no refused read has the answer {row.unread!r}, but {unread}"
    if not counts:
        wrong = wrong or "nothing could be refused"
    if not wrong and len(row.pickle) <= MOST_BY_BYTES:
        answer, _ = BENCH.run(row, "length")
        counts["its own answer"] += answer == own
        if answer != own:
            wrong = f"a byte a read and a write: {answer}, and its own is {own}"
    return row, counts, wrong


def begin(library: pathlib.Path) -> None:
    global BENCH
    BENCH = Bench(library)


def tries(library: pathlib.Path, wanted: List[rows.Row], jobs: int) -> Tuple[int, int]:
    """Runs the rows in parallel, and prints a line for each as it ends, up to the first wrong
    answer.
    """
    passed = 0
    start = functools.partial(begin, library)
    for row, counts, wrong in progress.results_of(tried, wanted, "rows", jobs, start):
        total = sum(counts.values())
        passed += total
        told = "; ".join(f"{count} {said}" for said, count in counts.most_common())
        print(f"{row.command} {row.name}: {total} cases: {told}", flush=True)
        if wrong:
            print(f"failed: {row.command} {row.name}, {wrong}")
            return passed, 1
    return passed, 0


def main() -> int:
    words = argparse.ArgumentParser(description=__doc__.splitlines()[0])
    words.add_argument(
        "--jobs", type=int, default=len(os.sched_getaffinity(0)), help="parallel processes"
    )
    words.add_argument(
        "--only", default="", metavar="WORD", help="only rows with this word in command or name"
    )
    asked = words.parse_args()
    program.require(program.PROGRAM)
    with tempfile.TemporaryDirectory(prefix="refuse-") as folder:
        library = refusing.built(folder)
        wanted = [row for row in rows.every() if asked.only in f"{row.command} {row.name}"]
        passed, failed = tries(library, wanted, asked.jobs) if library else (0, 1)
    print(f"{passed} passed, {failed} failed")
    return 1 if failed else 0


if __name__ == "__main__":
    sys.exit(main())

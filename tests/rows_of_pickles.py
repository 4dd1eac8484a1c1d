#!/usr/bin/env python3
"""Reads rows of pickles with CPython's readers where the check says yes: 10,000 rows from a seed.

A row is two to four pickles that share memo entries: as one Pickler writes them, as several write
them, and changed as an attacker changes them. `check --all` speaks of a reader for each pickle,
`--one-unpickler` of one reader for the row; both kinds are run, in C and in Python, with a stand-in
for every import. A yes fails where a reader asks for an unlisted pair, wants what isn't there or
leaves an item behind; a no fails where the row is honest. The last line counts checks.
"""
import argparse
import collections
import datetime
import io
import itertools
import os
import pathlib
import pickle
import random
import re
import sys
import tempfile
import time
from typing import Any, Callable, Counter, Dict, Iterator, List, NamedTuple, Optional, Set, Tuple

import mutations
import program
import progress

WALL = 20
CHUNK = 250
PROTOCOLS = range(pickle.HIGHEST_PROTOCOL + 1)
LISTED = {
    ("_codecs", "encode"),
    ("collections", "Counter"),
    ("collections", "OrderedDict"),
    ("datetime", "datetime"),
    ("m", "f"),
}
# C's reader takes memory for each memo number up to the greatest.
LIST = """\
version = 2
[imports]
_codecs = ["encode"]
collections = ["Counter", "OrderedDict"]
datetime = ["datetime"]
m = ["f"]
[limits]
numbers = 10000
"""
TEXTS = ["m", "f", "os", "system"]

# What a reader raises at what an object answers. It raises nothing else on an accepted pickle.
OF_ANSWERS = (TypeError, AttributeError)
OF_ANSWERS_TOO = re.compile(
    r"STACK_GLOBAL requires str|(slot )?state is not a dictionary|NEWOBJ(_EX)? "
)


class Row(NamedTuple):
    """A row of pickles. An honest one is accepted with the option that its writer wants."""

    pickles: List[bytes]
    honest: Optional[str]


class Option(NamedTuple):
    """An option of the check, and whether one reader reads the whole row."""

    word: str
    is_one: bool


OPTIONS = [Option("", False), Option("--one-unpickler", True)]


def values(dice: random.Random) -> List[object]:
    """What a row holds: each value has parts of those before."""
    parts: List[object] = [["x"], {"k": 1}, ("a", "b"), b"bytes", 1.5, *TEXTS]
    parts += [collections.OrderedDict(a=1), collections.Counter("ab"), datetime.datetime.max]
    makers: List[Callable[[List[object]], object]] = [list, tuple, lambda some: {"of": some}]
    made = []
    for _ in range(dice.randint(2, 4)):
        made.append(dice.choice(makers)(dice.sample(parts, dice.randint(1, 4))))
        parts.append(made[-1])
    return made


def by_one_pickler(dice: random.Random) -> Row:
    """A row that one Pickler writes: a pickle refers to what those before have memoized."""
    out, pickles = io.BytesIO(), []
    pickler = pickle.Pickler(out, dice.choice(PROTOCOLS))
    for value in values(dice):
        start = out.tell()
        pickler.dump(value)
        pickles.append(out.getvalue()[start:])
    return Row(pickles, "--one-unpickler")


def by_several_picklers(dice: random.Random) -> Row:
    return Row([pickle.dumps(value, dice.choice(PROTOCOLS)) for value in values(dice)], "")


def filled(dice: random.Random) -> bytes:
    """Instructions that fill the memo with texts, and most often so that a listed pair is there."""
    some = ["m", "f"] * 4 if dice.random() < 0.8 else dice.choices(TEXTS, k=8)
    return b"".join(b"V%s\nq%c0" % (text.encode(), at) for at, text in enumerate(some))


def inserted(dice: random.Random) -> bytes:
    """Instructions that leave the stack as it was, and use or change the memo."""
    text = dice.choice(TEXTS).encode()
    one, other = bytes([2 * dice.randrange(4)]), bytes([2 * dice.randrange(4) + 1])
    store = dice.choice([b"\x94", b"q" + one, b"r" + other + bytes(3), b"p%d\n" % one[0]])
    kept = [
        b"\x8c" + bytes([len(text)]) + text,
        b"X" + bytes([len(text), 0, 0, 0]) + text,
        b"cm\nf\n",
        b"cm\nf\n)R",
        b"]h" + one + b"a",
        b"h" + one,
        b"h" + one + b"h" + other + b"\x93",
        b"h" + one + b")R",
        b"Vm\nVf\n\x93",
        b"Vm\n" + store + b"0Vf\nq" + other + b"0h" + one + b"h" + other + b"\x93",
    ]
    return dice.choice(kept) + dice.choice([b"", store]) + b"0"


def unframed(parts: List[bytes]) -> List[bytes]:
    """A pickle without frames, which hold no more than they did."""
    return [part for part in parts if part[:1] != b"\x95"]


def changed(dice: random.Random) -> Row:
    """A row as an attacker makes it of an honest one."""
    honest = dice.choice([by_one_pickler, by_several_picklers])(dice)
    pickles = list(honest.pickles)
    if dice.random() < 0.3:
        dice.shuffle(pickles)
    for at, whole in enumerate(pickles):
        parts = unframed(mutations.parted(whole))
        for _ in range(dice.choice((0, 1, 2, 3))):
            place = dice.randrange(len(parts))
            parts.insert(place, inserted(dice))
        if dice.random() < 0.3:
            parts.insert(0, filled(dice))
        if dice.random() < 0.2:
            parts = dice.choice(mutations.OF_INSTRUCTIONS)(dice, parts)
        pickles[at] = b"".join(parts)
        if dice.random() < 0.1:
            pickles[at] = dice.choice(mutations.OF_BYTES)(dice, pickles[at])
    return Row(pickles, None)


def short(dice: random.Random) -> Row:
    """A row that does nothing but use the memo."""
    pickles = []
    for at in range(dice.randint(2, 4)):
        parts = [filled(dice)] if at == 0 or dice.random() < 0.5 else []
        parts += [inserted(dice) for _ in range(dice.randint(1, 4))]
        pickles.append(b"".join([*parts, b"N."]))
    return Row(pickles, None)


KINDS = [by_one_pickler, by_several_picklers, changed, changed, changed, short]


def row_of(seed: int, number: int) -> Row:
    """The row of this number: the same for the same seed, whatever is made beside it."""
    dice = random.Random(seed << 32 | number)
    return dice.choice(KINDS)(dice)


class Answer(Exception):
    """What a stand-in raises."""


class StandIn:
    """Stands for whatever is imported. It can be called, filled and set, and may raise at each."""

    dice = random.Random()

    def __new__(cls, *_: object, **__: object) -> Any:
        cls.may_raise()
        answers: List[object] = [*TEXTS, [], {}, (), *[super().__new__(cls)] * 9]
        return cls.dice.choice(answers)

    @classmethod
    def may_raise(cls, *_: object) -> None:
        if cls.dice.random() < 0.05:
            raise Answer

    append = extend = add = __setitem__ = __setstate__ = may_raise


class Recorded:
    """A reader that answers each import with a stand-in and keeps what it was asked for."""

    asked: List[Tuple[str, str]]

    def find_class(self, module: str, name: str) -> Any:
        self.asked.append((module, name))
        return StandIn

    def persistent_load(self, _: object) -> Any:
        return StandIn()


class InC(Recorded, pickle.Unpickler):
    def leaves(self) -> bool:
        return False  # it doesn't tell


class InPython(Recorded, pickle._Unpickler):
    stack: List[object]
    metastack: List[List[object]]

    def leaves(self) -> bool:
        return bool(self.stack or self.metastack)


def is_want(error: Exception) -> bool:
    """Whether a reader raised it for want of something, and not at an object's answer."""
    if isinstance(error, pickle.UnpicklingError):
        return not OF_ANSWERS_TOO.match(str(error))
    return not isinstance(error, (Answer, *OF_ANSWERS))


class Yes(NamedTuple):
    """What the check says of a row that it accepts."""

    size: int
    pickles: int
    imports: int


def faults(kind: Any, is_one: bool, row: bytes, yes: Yes) -> Iterator[str]:
    """What readers of a kind do on an accepted row that a yes doesn't allow."""
    file, loaded, reader = io.BytesIO(row), 0, None
    asked: List[Tuple[str, str]] = []
    try:
        while file.tell() < len(row):
            if reader is None or not is_one:
                reader = kind(file, encoding="latin1", buffers=itertools.repeat(b"buffer"))
                reader.asked = asked
            reader.load()
            loaded += 1
            if reader.leaves():
                yield f"pickle {loaded - 1} leaves an item behind"
    except Exception as error:  # a reader raises whatever an object does
        if is_want(error):
            yield f"pickle {loaded}: {type(error).__name__}: {error}"
    else:
        if (len(row), loaded, len(asked)) != yes:
            yield f"{loaded} pickles and {len(asked)} imports were read"
    unlisted: Set[Tuple[str, str]] = {*asked} - LISTED
    if unlisted:
        yield f"asked for {sorted(unlisted)}"


class Judge:
    """A folder with one row at a time, where the program runs."""

    def __init__(self) -> None:
        self.runner = program.Runner(program.PROGRAM, WALL)
        self.folder = tempfile.TemporaryDirectory(prefix="rows-")
        os.chdir(self.folder.name)
        pathlib.Path("list.toml").write_text(LIST, encoding="utf-8")

    def check(self, option: Option, row: bytes) -> "program.Ran":
        pathlib.Path("row").write_bytes(row)
        words = ["check", "--allow", "list.toml", "--all", *option.word.split(), "row"]
        return self.runner.run(words)

    def judge(self, row: Row, option: Option, seed: int) -> Tuple[str, List[str]]:
        """What the check says of a row, and what is wrong with that."""
        whole = b"".join(row.pickles)
        ran = self.check(option, whole)
        said = re.fullmatch(rb"yes: (\d+) bytes, (\d+) pickles, (\d+) imports\n", ran.out)
        if said and ran.status == 0:
            yes, wrong = Yes(*map(int, said.groups())), []
            for kind in (InC, InPython):
                StandIn.dice.seed(seed)
                told = faults(kind, option.is_one, whole, yes)
                wrong += [f"{kind.__name__}: {fault}" for fault in told]
            return "yes", wrong
        if ran.status != 1 or not ran.out.startswith(b"no in pickle "):
            return "neither", [f"status {ran.status}: {ran.out!r} {ran.err!r}"]
        return "no", [f"an honest row: {ran.out!r}"] if row.honest == option.word else []


Said = Counter[Tuple[str, str]]


class Judged(NamedTuple):
    """How often each option was answered with what, and what is wrong."""

    said: Said
    failed: List[Tuple[int, str, List[str]]]


JUDGE: Dict[str, Judge] = {}


def begin() -> None:
    JUDGE["of this process"] = Judge()


def judged(task: Tuple[int, range]) -> Judged:
    """Judges a chunk of rows."""
    seed, numbers = task
    found = Judged(collections.Counter(), [])
    for number, option in itertools.product(numbers, OPTIONS):
        answer, wrong = JUDGE["of this process"].judge(row_of(seed, number), option, number)
        found.said[option.word, answer] += 1
        if wrong:
            found.failed.append((number, option.word, wrong))
    return found


def judge_all(asked: argparse.Namespace) -> Judged:
    """Judges all rows side by side, and keeps those that fail."""
    chunks = [range(at, min(at + CHUNK, asked.rows)) for at in range(0, asked.rows, CHUNK)]
    tasks = [(asked.seed, chunk) for chunk in chunks]
    whole = Judged(collections.Counter(), [])
    for found in progress.results_of(judged, tasks, "chunks", asked.jobs, begin):
        whole.said.update(found.said)
        whole.failed.extend(found.failed)
        for number, word, wrong in found.failed:
            kept = pathlib.Path(asked.keep, f"row-{asked.seed}-{number}")
            kept.write_bytes(b"".join(row_of(asked.seed, number).pickles))
            told = f"--all {word}".strip()
            print(f"failed: {told} of row {number}, in {kept}: {'; '.join(wrong)}", flush=True)
    return whole


def main() -> int:
    words = argparse.ArgumentParser(description=(__doc__ or "").splitlines()[0])
    words.add_argument("--rows", type=int, default=10_000, help="how many rows (10,000)")
    words.add_argument("--seed", type=int, default=1, help="what they are made from (1)")
    jobs = len(os.sched_getaffinity(0))
    words.add_argument("--jobs", type=int, default=jobs, help="processes side by side")
    words.add_argument("--keep", default=tempfile.gettempdir(), help="the folder for failed rows")
    asked = words.parse_args()
    program.require(program.PROGRAM)
    started = time.monotonic()
    whole = judge_all(asked)
    for option in OPTIONS:
        told = ", ".join(f"{whole.said[option.word, it]} {it}" for it in ("yes", "no"))
        print(f"--all {option.word}".strip() + f": {told}")
    print(f"{asked.rows} rows of seed {asked.seed}, {time.monotonic() - started:.0f} s")
    print(f"{sum(whole.said.values()) - len(whole.failed)} passed, {len(whole.failed)} failed")
    return 1 if whole.failed else 0


if __name__ == "__main__":
    sys.exit(main())

"""What the tests of a disturbed `optimize` share: pickles, runs of the program, and their
leftovers.
"""
import argparse
import contextlib
import functools
import io
import os
import pathlib
import pickle
import random
import shutil
import stat
import subprocess
import tempfile
from typing import Any, Callable, Dict, Iterator, List, Optional, Set, Tuple

import program

SECONDS = 20
NOBODY = 65534

OLD = pickle.dumps("what stood there before", 4)
NEW = pickle.dumps(["one", "two"], 4)

Test = Callable[[pathlib.Path], None]
TESTS: List[Test] = []


class Bench:
    """The program under test."""

    program = program.PROGRAM


BENCH = Bench()


class Untried(Exception):
    """A test cannot run on this machine."""


def test(function: Test) -> Test:
    TESTS.append(function)
    return function


def expect(holds: bool, otherwise: object) -> None:
    if not holds:
        raise AssertionError(otherwise)


@functools.lru_cache(maxsize=None)
def large(word: str) -> bytes:
    """A pickle that takes the program some milliseconds, with memo writes that nothing reads."""
    return pickle.dumps([f"{word} {number}" for number in range(60_000)], 4)


@functools.lru_cache(maxsize=64)
def value_of(content: bytes) -> Any:
    """The value of the pickle that is the whole content, or None."""
    file = io.BytesIO(content)
    try:
        value = pickle.load(file)
    except (pickle.UnpicklingError, EOFError, ValueError, KeyError, IndexError):
        return None
    return value if file.tell() == len(content) else None


def expect_form(content: bytes, source: bytes) -> None:
    """Checks that the content is a smaller pickle of the same value."""
    same = value_of(content) == pickle.loads(source) and len(content) < len(source)
    expect(same, f"{len(content)} bytes that are no optimized form")


def words_of(file: pathlib.Path, out: pathlib.Path) -> List[str]:
    return [str(BENCH.program), "optimize", str(file), str(out)]


def start(file: pathlib.Path, out: pathlib.Path, **how: Any) -> "subprocess.Popen[str]":
    pipes: Dict[str, Any] = {"stdin": subprocess.DEVNULL, "stdout": subprocess.DEVNULL}
    pipes.update(stderr=subprocess.PIPE, universal_newlines=True, **how)
    ran: "subprocess.Popen[str]" = subprocess.Popen(words_of(file, out), **pipes)
    return ran


def ending(ran: "subprocess.Popen[str]") -> Tuple[int, str]:
    """The status, and the text on standard error. A run that doesn't end is killed."""
    try:
        told = ran.communicate(timeout=SECONDS)[1]
    except subprocess.TimeoutExpired:
        ran.kill()
        told = ran.communicate()[1] + f"not ended after {SECONDS} seconds"
    return ran.returncode, told


def run(file: pathlib.Path, out: pathlib.Path, **how: Any) -> Tuple[int, str]:
    return ending(start(file, out, **how))


def expect_done(file: pathlib.Path, out: pathlib.Path, **how: Any) -> None:
    ended = run(file, out, **how)
    expect(ended == (0, ""), f"{out.name}: {ended}")


def expect_unmade(file: pathlib.Path, out: pathlib.Path, **how: Any) -> None:
    ended = run(file, out, **how)
    expect(ended == (2, f"cannot write {out}\n"), f"{out.name}: {ended}")


def names(folder: pathlib.Path) -> Set[str]:
    return set(os.listdir(str(folder)))


def expect_names(folder: pathlib.Path, *wanted: str) -> None:
    expect(names(folder) == set(wanted), f"in the folder: {sorted(names(folder))[:9]}")


def watch(folder: pathlib.Path, still: Callable[[], bool], look: Callable[[str], None]) -> None:
    """Reads each file of a folder, again and again."""
    while still():
        for name in names(folder):
            with contextlib.suppress(FileNotFoundError):
                look(str(folder / name))


def mode_of(path: pathlib.Path) -> int:
    return stat.S_IMODE(path.stat().st_mode)


def lay(path: pathlib.Path, content: bytes, mode: int = 0o644) -> pathlib.Path:
    path.write_bytes(content)
    path.chmod(mode)
    return path


def become_nobody() -> None:
    os.setgroups([])
    os.setgid(NOBODY)
    os.setuid(NOBODY)


def as_another(folder: pathlib.Path) -> Dict[str, Any]:
    """How to run a program that permissions apply to, in the folder."""
    if os.geteuid() != 0:
        return {}
    folder.chmod(0o777)
    return {"preexec_fn": become_nobody}


def require_root() -> None:
    if os.geteuid() != 0:
        raise Untried("needs root")


@contextlib.contextmanager
def room() -> Iterator[pathlib.Path]:
    with tempfile.TemporaryDirectory(prefix="replacing-") as folder:
        os.chmod(folder, 0o711)
        yield pathlib.Path(folder)


def failure(tried: Test) -> Optional[str]:
    with room() as folder:
        try:
            tried(folder)
        except (AssertionError, OSError, subprocess.TimeoutExpired) as error:
            return f"{type(error).__name__}: {error}"
    return None


def tally(only: str) -> Tuple[int, int, int]:
    """Runs the tests with this word in their names. Returns how many passed, failed, and were
    skipped.
    """
    passed = failed = skipped = 0
    for tried in TESTS:
        name = tried.__name__.replace("_", " ")
        if only not in name:
            continue
        try:
            wrong = failure(tried)
        except Untried as why:
            print(f"skipped: {name}: {why}", flush=True)
            skipped += 1
            continue
        print(f"{name}: {wrong or 'passed'}", flush=True)
        passed, failed = passed + (wrong is None), failed + (wrong is not None)
    return passed, failed, skipped


def run_all(about: Optional[str]) -> int:
    """What a script of such tests does: it reads the words of the command, and runs the tests."""
    words = argparse.ArgumentParser(description=(about or "").splitlines()[0])
    words.add_argument("--program", type=pathlib.Path, default=program.PROGRAM)
    words.add_argument(
        "--only", default="", metavar="WORD", help="only tests with this word in the name"
    )
    words.add_argument("--seed", type=int, default=1, help="of the moments of the interrupts")
    asked = words.parse_args()
    program.require(asked.program)
    random.seed(asked.seed)
    with room() as folder:
        # where any user may run it
        BENCH.program = folder / "pktool"
        shutil.copy(str(asked.program), str(BENCH.program))
        BENCH.program.chmod(0o755)
        passed, failed, skipped = tally(asked.only)
    print(f"{passed} passed, {failed} failed, {skipped} skipped")
    return 1 if failed else 0

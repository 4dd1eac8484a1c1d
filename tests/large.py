#!/usr/bin/env python3
"""Checks large data under the limits for large data, and under the standard ones, which refuse it.

CPython makes the pickles. Each must be accepted completely under the limits for large data, within
the bounds on time and memory, and refused as TooLarge without them. A pipe, which can't pass over
payloads, must give the answers of a file, also where the pickle is cut. The last line says how many
passed.
"""
import argparse
import contextlib
import dataclasses
import os
import pathlib
import pickle
import shutil
import sys
import tempfile
from typing import Callable, Iterator, List

import program

# The cost allowed per byte, and per run.
NANOSECONDS = 100
SECONDS = 1.0
PEAK = 96 * 10**6
PER_BYTE = 3
WALL = 60
IMPORTS = """\
version = 2
[imports]
_codecs = ["encode"]
"""
LARGE = IMPORTS + "[limits]\nlarge = true\npassed = 33_554_432\n"


@dataclasses.dataclass(frozen=True)
class Data:
    """Large data: its name, what makes its value, and the protocol of its pickle."""

    name: str
    make: Callable[[], object]
    protocol: int


def dicts() -> object:
    return [{} for _ in range(1_100_000)]


def texts() -> object:
    return [f"text {i}" for i in range(1_200_000)]


def text() -> object:
    return "a" * 20_000_000


def array() -> object:
    """The content of a numpy array. Protocol 2 has no bytes: they are a text that is encoded."""
    return bytes(range(256)) * (24_000_000 // 256)


DATA = [
    *(Data("1,100,000 dicts", dicts, protocol) for protocol in (0, 2, 4, 5)),
    *(Data("1,200,000 texts", texts, protocol) for protocol in (2, 4, 5)),
    *(Data("a text of 20 MB", text, protocol) for protocol in (2, 4, 5)),
    *(Data("an array of 24 MB", array, protocol) for protocol in (2, 4, 5)),
]


def check(runner: "program.Runner", allow: str, name: str) -> "program.Ran":
    pathlib.Path("list.toml").write_text(allow, encoding="utf-8")
    return runner.run(["check", "--allow", "list.toml", name])


def faults(size: int, without: "program.Ran", large: "program.Ran") -> Iterator[str]:
    """What is wrong with the two answers for a pickle of this size."""
    if without.status != 1 or not without.out.endswith(b": TooLarge\n"):
        yield f"without: {without.out!r}"
    if large.status != 0 or not large.out.startswith(b"yes: %d bytes, " % size):
        yield f"large: {large.out!r}"
    if large.seconds > SECONDS + size * NANOSECONDS / 1e9:
        yield f"{large.seconds:.2f} s of CPU time"
    if large.peak > PEAK + size * PER_BYTE:
        yield f"{large.peak / 1e6:.0f} MB"


def write_apart(data: Data, path: pathlib.Path) -> int:
    """Writes a pickle in a separate process, and returns its size.

    A program's peak memory is at least that of its parent process, so this one stays small.
    """
    child = os.fork()
    if child == 0:
        path.write_bytes(pickle.dumps(data.make(), data.protocol))
        os._exit(0)
    if os.waitpid(child, 0)[1] != 0:
        sys.exit(f"{data.name} could not be written")
    return path.stat().st_size


def check_piped(runner: "program.Runner") -> "program.Ran":
    """Checks the pickle from a pipe, which a separate process writes."""
    child = os.fork()
    if child == 0:
        with contextlib.suppress(BrokenPipeError), open("pickle", "rb") as file:
            with open("pipe", "wb") as pipe:
                shutil.copyfileobj(file, pipe)
        os._exit(0)
    ran = check(runner, LARGE, "pipe")
    os.waitpid(child, 0)
    return ran


def differing(runner: "program.Runner", size: int) -> Iterator[str]:
    """Where a pipe has another answer than the pickle's file, which is then cut."""
    for kept in (size, size - 1, size // 2):
        os.truncate("pickle", kept)
        file, pipe = check(runner, LARGE, "pickle"), check_piped(runner)
        if (file.status, file.out, file.err) != (pipe.status, pipe.out, pipe.err):
            yield f"{kept} bytes: {file.out!r}, but {pipe.out!r} from a pipe"
        if kept < size and not file.out.endswith(b": Truncated\n"):
            yield f"{kept} bytes: {file.out!r}"


def passes(runner: "program.Runner", data: Data) -> bool:
    """Prints the line of a pickle, and returns whether its answers are right."""
    size = write_apart(data, pathlib.Path("pickle"))
    without, large = (check(runner, allow, "pickle") for allow in (IMPORTS, LARGE))
    wrong = [*faults(size, without, large), *differing(runner, size)]
    cost = f"{size / 1e6:.1f} MB, {large.seconds:.2f} s, {large.peak / 1e6:.0f} MB of memory"
    said = f"{data.name}, protocol {data.protocol}: {cost}"
    print(f"failed: {said} {'; '.join(wrong)}" if wrong else said, flush=True)
    return not wrong


def main() -> int:
    argparse.ArgumentParser(description=__doc__.splitlines()[0] if __doc__ else None).parse_args()
    program.require(program.PROGRAM)
    runner = program.Runner(program.PROGRAM, WALL)
    with tempfile.TemporaryDirectory(prefix="large-") as folder:
        os.chdir(folder)
        os.mkfifo("pipe")
        passed: List[bool] = [passes(runner, data) for data in DATA]
        os.chdir("/")
    print(f"{passed.count(True)} passed, {passed.count(False)} failed")
    return 0 if all(passed) else 1


if __name__ == "__main__":
    sys.exit(main())

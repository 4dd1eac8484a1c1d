"""Runs `pktool` as a user does, or a Python for comparison, and measures it."""
import dataclasses
import os
import pathlib
import statistics
import subprocess
import sys
from typing import Callable, List, Sequence, Union

ROOT = pathlib.Path(__file__).resolve().parent.parent
PROGRAM = ROOT / "crates" / "pktool" / "out" / "pktool"

# A word of a command.
Word = Union[str, pathlib.Path]

# How much of a command's output is kept.
FRONT = 4096

# A Python program that acts on the bytes of a file, and prints the CPU time that this took.
ACTS = """
import gc, json, os, pickle, pickletools, sys, time
gc.disable()
data = open(sys.argv[1], "rb").read()
start = time.process_time()
kept = {action}
print(time.process_time() - start, flush=True)
os._exit(0)
"""


@dataclasses.dataclass(frozen=True)
class Run:
    """The start of a command's output, its CPU time in seconds (user and system), its peak memory
    in bytes.
    """

    status: int
    line: str
    seconds: float
    peak: int


def build() -> None:
    """Proves and builds the program if a source has changed."""
    subprocess.run([ROOT / "pktool", "--help"], stdout=subprocess.DEVNULL, check=True)


def exit_code(status: int) -> int:
    """The exit code that a wait status means, or the negative number of a signal."""
    return os.WEXITSTATUS(status) if os.WIFEXITED(status) else -os.WTERMSIG(status)


def measured(command: Sequence[str]) -> Run:
    """Runs a command with its output in a pipe."""
    started = subprocess.Popen(command, stdout=subprocess.PIPE)
    assert started.stdout
    front = b""
    while piece := started.stdout.read(1 << 16):
        front += piece[: FRONT - len(front)]
    started.stdout.close()
    _, ended, used = os.wait4(started.pid, 0)
    started.returncode = exit_code(ended)
    line = front.decode(errors="replace")
    return Run(started.returncode, line, used.ru_utime + used.ru_stime, used.ru_maxrss * 1024)


def run(*words: Word) -> Run:
    """Runs the program."""
    return measured([str(PROGRAM), *map(str, words)])


def command(allow: pathlib.Path, pickle: pathlib.Path) -> List[str]:
    return [str(PROGRAM), "check", "--allow", str(allow), str(pickle)]


def check(allow: pathlib.Path, pickle: pathlib.Path) -> Run:
    """Checks a pickle under a list; both are paths."""
    return measured(command(allow, pickle))


def ratio(times: Sequence[float], others: Sequence[float]) -> float:
    """The median ratio of times that were measured in turns: of neighbours, because the speed of a
    shared machine changes within seconds.
    """
    return statistics.median(time / other for time, other in zip(times, others))


def best_of(rounds: int, action: Callable[[], Run]) -> Run:
    """The run with the least time."""
    return min((action() for _ in range(rounds)), key=lambda run: run.seconds)


def best(allow: pathlib.Path, pickle: pathlib.Path, rounds: int) -> Run:
    """The check with the least time."""
    return best_of(rounds, lambda: check(allow, pickle))


def python(action: str, path: pathlib.Path) -> Run:
    """Python acting on the data of a file: the CPU time of the action alone, the peak memory of the
    process.
    """
    run = measured([sys.executable, "-S", "-E", "-c", ACTS.format(action=action), str(path)])
    return dataclasses.replace(run, seconds=float(run.line))

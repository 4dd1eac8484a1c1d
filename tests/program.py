"""Runs the built program, often and cheaply.

Its output goes to memory, and no shell is involved.
"""
import contextlib
import dataclasses
import os
import pathlib
import signal
import sys
from typing import Any, Mapping, Optional, Sequence

ROOT = pathlib.Path(__file__).resolve().parent.parent
# PKTOOL names the program; otherwise it is the one that was built here.
BUILT = ROOT / "crates" / "pktool" / "out" / "pktool"
PROGRAM = pathlib.Path(os.environ.get("PKTOOL", str(BUILT))).resolve()


def require(path: pathlib.Path) -> None:
    """Ends the script if the gate has not built what it runs."""
    if not os.access(path, os.X_OK):
        told = f"there is no {path}: rt ci builds it, and ./pktool builds or unpacks the program"
        print(told, file=sys.stderr)
        print("0 passed, 1 failed")
        sys.exit(1)


@dataclasses.dataclass(frozen=True)
class Ran:
    """How a run ended: its status (below zero the signal that ended it), its output, the CPU time
    in seconds and the peak memory in bytes.
    """

    status: int
    out: bytes
    err: bytes
    seconds: float
    peak: int


class Stream:
    """A program's output, kept in memory."""

    def __init__(self, name: str) -> None:
        self.file = os.memfd_create(name)

    def empty(self) -> None:
        os.ftruncate(self.file, 0)
        os.lseek(self.file, 0, os.SEEK_SET)

    def read(self) -> bytes:
        return os.pread(self.file, os.fstat(self.file).st_size, 0)


class Runner:
    """Runs a program repeatedly in one process. A run that takes longer than the bound, in seconds,
    is killed.
    """

    def __init__(self, program: pathlib.Path, bound: float) -> None:
        self.program = str(program)
        self.bound = bound
        self.out, self.err = Stream("out"), Stream("err")
        self.running: Optional[int] = None
        signal.signal(signal.SIGALRM, self._end)

    def _end(self, *_: Any) -> None:
        with contextlib.suppress(ProcessLookupError):
            if self.running:
                os.kill(self.running, signal.SIGKILL)

    def run(self, words: Sequence[str], environment: Optional[Mapping[str, str]] = None) -> Ran:
        for stream in (self.out, self.err):
            stream.empty()
        actions = [(os.POSIX_SPAWN_DUP2, self.out.file, 1), (os.POSIX_SPAWN_DUP2, self.err.file, 2)]
        line = [self.program, *words]
        spawned = os.posix_spawn(self.program, line, environment or {}, file_actions=actions)
        self.running = spawned
        signal.setitimer(signal.ITIMER_REAL, self.bound)
        _, ended, used = os.wait4(spawned, 0)
        signal.setitimer(signal.ITIMER_REAL, 0)
        self.running = None
        return Ran(
            -os.WTERMSIG(ended) if os.WIFSIGNALED(ended) else os.WEXITSTATUS(ended),
            self.out.read(),
            self.err.read(),
            used.ru_utime + used.ru_stime,
            used.ru_maxrss * 1024,
        )

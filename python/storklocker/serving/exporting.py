"""What commands print of a body, each in a process of its own."""

from __future__ import annotations

import asyncio
import contextlib
import sys
from asyncio.subprocess import DEVNULL, PIPE, Process
from typing import Dict, NamedTuple, Tuple

from ..scanning.program import PROGRAM
from .bodies import TooLarge
from .workers import Busy, Ended, Late, limit

YES, NO, FAULT = 0, 1, 2
_BLOCK = 1 << 16


class Command(NamedTuple):
    """What reads standard input and prints JSON."""

    words: Tuple[str, ...]
    answers: Tuple[int, ...]
    """With these statuses it has answered."""


_EXPLAIN = (sys.executable, "-m", "storklocker", "explain", "--format", "json", "-")
COMMANDS: Dict[str, Command] = {
    "json": Command((str(PROGRAM), "json", "/proc/self/fd/0"), (YES, NO)),
    "explain": Command(_EXPLAIN, (YES, NO, FAULT)),
}
"""Each by what is asked for it."""


class Exported(NamedTuple):
    """What a command says."""

    status: int
    said: bytes


class Exporter:
    """Runs commands, at most so many at once, each with so much memory."""

    def __init__(self, number: int, memory: int, most: int) -> None:
        self._left, self._memory, self._most = number, memory, most

    async def exported(self, kind: str, path: str, ends: float) -> Exported:
        """The JSON that a command prints of a file, or why there is none. Raises FileNotFoundError
        without the program, Busy, Ended, Late and TooLarge.
        """
        if not self._left:
            raise Busy
        self._left -= 1
        try:
            return await self._run(kind, path, ends)
        finally:
            self._left += 1

    async def _run(self, kind: str, path: str, ends: float) -> Exported:
        with open(path, "rb") as file:
            process = await asyncio.create_subprocess_exec(
                *COMMANDS[kind].words, stdin=file, stdout=PIPE, stderr=DEVNULL
            )
        clock = asyncio.get_event_loop().call_at(ends, _end, process)
        try:
            with contextlib.suppress(Ended):  # (small ones are done before there is a limit)
                limit(process.pid, self._memory)
            said = await self._said(process)
            status = await process.wait()
        finally:
            clock.cancel()
            _end(process)
        if status not in COMMANDS[kind].answers:
            raise Late if asyncio.get_event_loop().time() >= ends else Ended
        return Exported(status, said)

    async def _said(self, process: Process) -> bytes:
        assert process.stdout is not None
        said = bytearray()
        while True:
            data = await process.stdout.read(_BLOCK)
            if not data:
                return bytes(said)
            said += data
            if len(said) > self._most:
                raise TooLarge


def _end(process: Process) -> None:
    with contextlib.suppress(ProcessLookupError):
        process.kill()

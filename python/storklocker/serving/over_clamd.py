"""The server for clamd's protocol: PING, VERSION, INSTREAM, and sessions of these.

What `scan` finds under the default list is FOUND: what isn't a pickle is OK, as for clamd.
"""

from __future__ import annotations

import asyncio
import logging
from typing import Awaitable, NamedTuple

from .._storklocker import version as __version__
from .bodies import NoRoom, TooLarge
from .connections import Connections
from .desk import Answer, Desk
from .lists import SCAN
from .workers import Busy, Ended, Late

_LOG = logging.getLogger("storklocker")
_LONGEST = 1 << 12
"""The most bytes of a command."""
_BLOCK = 1 << 16
_PATIENCE = 10.0
"""The seconds in which a client reads an answer."""
_TOO_LARGE = "INSTREAM size limit exceeded. ERROR"
_FAULTS = {
    TooLarge: _TOO_LARGE,
    NoRoom: "stream: No room. ERROR",
    Busy: "stream: No worker became free. ERROR",
    Ended: "stream: The worker ended. ERROR",
    Late: "stream: Time limit reached. ERROR",
}
VERSION = f"Storklocker {__version__}"
_COMMANDS = f"{VERSION}| COMMANDS: PING VERSION VERSIONCOMMANDS INSTREAM IDSESSION END"


class Closed(Exception):
    """The other side has closed, or breaks the protocol."""


class Command(NamedTuple):
    """A command, and what ends it and its answer."""

    name: str
    end: bytes
    is_prefixed: bool
    """Whether it begins with n or z, which those need that more bytes follow."""


class Clamd:
    """Answers connections."""

    def __init__(self, desk: Desk, connections: Connections) -> None:
        self.desk, self._connections = desk, connections
        self.busy = 0
        """How many connections are being answered."""

    async def connected(
        self, reader: asyncio.StreamReader, writer: asyncio.StreamWriter
    ) -> None:
        """Answers a connection."""
        if self._connections.is_full():
            writer.close()
            return
        self._connections.streams += 1
        try:
            await _Conversation(self, reader, writer).run()
        except (Closed, ConnectionError, asyncio.TimeoutError):
            pass
        except Exception as error:
            _LOG.error("A fault of the daemon in clamd's protocol: %s", type(error).__name__)
        finally:
            self._connections.streams -= 1
            writer.close()


class _Conversation:
    """A connection: one command, or a session of them."""

    def __init__(
        self, clamd: Clamd, reader: asyncio.StreamReader, writer: asyncio.StreamWriter
    ) -> None:
        self._clamd, self._desk = clamd, clamd.desk
        self._reader, self._writer = reader, writer
        self._number = 0
        self._is_session = False

    async def run(self) -> None:
        """Answers up to the end."""
        while True:
            ends = self._desk.ends()
            command = await self._command(ends)
            if command.name == "IDSESSION" and command.is_prefixed and not self._is_session:
                self._is_session = True
                continue
            if command.name == "END" and self._is_session:
                return
            self._number += 1
            self._clamd.busy += 1
            try:
                may_follow = await self._answered(command, ends)
            finally:
                self._clamd.busy -= 1
            if not (may_follow and self._is_session):
                return

    async def _answered(self, command: Command, ends: float) -> bool:
        """Answers a command; whether another may follow it."""
        if command.name == "INSTREAM" and command.is_prefixed:
            said = await self._scanned(ends)
        else:
            said = {
                "PING": "PONG",
                "VERSION": VERSION,
                "VERSIONCOMMANDS": _COMMANDS,
            }.get(command.name, "UNKNOWN COMMAND")
        front = f"{self._number}: " if self._is_session else ""
        self._writer.write(f"{front}{said}".encode() + command.end)
        await asyncio.wait_for(self._writer.drain(), _PATIENCE)
        return said not in ("UNKNOWN COMMAND", _TOO_LARGE)

    async def _scanned(self, ends: float) -> str:
        stream = _Stream(self._reader, self._desk.room.each, ends)
        try:
            said = _said(await self._desk.answer(SCAN, stream, ends))
        except tuple(_FAULTS) as error:
            said = _FAULTS[type(error)]
        if said != _TOO_LARGE:
            await stream.drop()  # (a client reads once it has sent everything)
        return said

    async def _command(self, ends: float) -> Command:
        first = await _within(self._reader.readexactly(1), ends)
        end = {b"n": b"\n", b"z": b"\0"}.get(first)
        name = b"" if end else first
        while True:
            byte = await _within(self._reader.readexactly(1), ends)
            if byte == (end or b"\n"):
                return Command(name.rstrip(b"\r").decode("latin-1"), byte, end is not None)
            name += byte
            if len(name) > _LONGEST:
                raise Closed


class _Stream:
    """The bytes of a stream as they come."""

    def __init__(self, reader: asyncio.StreamReader, most: int, ends: float) -> None:
        self._reader, self._left, self._ends = reader, most, ends
        self._chunk = 0
        self._is_at_end = False

    def __aiter__(self) -> "_Stream":
        return self

    async def __anext__(self) -> bytes:
        if not self._chunk and not self._is_at_end:
            front = await _within(self._reader.readexactly(4), self._ends)
            self._chunk = int.from_bytes(front, "big")
            self._left -= self._chunk
            self._is_at_end = not self._chunk
            if self._left < 0:
                raise TooLarge
        if self._is_at_end:
            raise StopAsyncIteration
        piece = await _within(self._reader.read(min(self._chunk, _BLOCK)), self._ends)
        if not piece:
            raise Closed
        self._chunk -= len(piece)
        return piece

    async def drop(self) -> None:
        """Drops the rest."""
        async for _ in self:
            pass


async def _within(asked: Awaitable[bytes], ends: float) -> bytes:
    """What is read up to a time. Raises Closed."""
    left = max(0.0, ends - asyncio.get_event_loop().time())
    try:
        return await asyncio.wait_for(asked, left)
    except (asyncio.IncompleteReadError, asyncio.TimeoutError):
        raise Closed from None


def _said(answer: Answer) -> str:
    if answer.is_yes:
        return "stream: OK"
    return f"stream: Storklocker.{answer.word.value.title().replace(' ', '')} FOUND"

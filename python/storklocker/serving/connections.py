"""How many connections there are, and how long each may wait."""

from __future__ import annotations

import asyncio
import contextlib
from typing import Any, Callable, Dict, Iterator, Optional, Set

_FULL = (
    b"HTTP/1.1 503 Service Unavailable\r\nContent-Type: application/json\r\nRetry-After: 1\r\n"
    b"Content-Length: 33\r\nConnection: close\r\n\r\n" + b'{"error": "too many connections"}'
)


class Connections:
    """Those of all sockets. aiohttp never ends one that sends no request, or that doesn't read its
    answer: this does.
    """

    def __init__(self, most: int, seconds: float) -> None:
        self._most, self._seconds = most, seconds
        self._servers: Set[Any] = set()
        self._made: Dict[Any, float] = {}
        self._due: Dict[Any, float] = {}
        self._busy: Dict[Any, int] = {}
        self.streams = self.turned_away = 0

    @property
    def count(self) -> int:
        """How many there are."""
        return self.streams + len(self._made) + sum(len(it.connections) for it in self._servers)

    @property
    def busy(self) -> int:
        """How many are asking something."""
        return len(self._busy)

    def maker(self, server: Any) -> Callable[[], asyncio.BaseProtocol]:
        """What makes the protocol of each connection to a server of aiohttp."""
        self._servers.add(server)
        connected = server.connection_made

        def connection_made(protocol: Any, transport: asyncio.Transport) -> None:
            self._made.pop(protocol, None)
            connected(protocol, transport)

        server.connection_made = connection_made  # (many are made before the first is connected)

        def make() -> asyncio.BaseProtocol:
            if self.is_full():
                return Full()
            made: asyncio.BaseProtocol = server()
            self._made[made] = self._now() + self._seconds
            return made

        return make

    def is_full(self) -> bool:
        """Whether one more is too many, which is counted."""
        is_full = self.count >= self._most
        self.turned_away += is_full
        return is_full

    @contextlib.contextmanager
    def asking(self, protocol: Any) -> Iterator[None]:
        """Counts a connection as busy meanwhile: other clocks end what it asks."""
        self._busy[protocol] = self._busy.get(protocol, 0) + 1
        try:
            yield
        finally:
            self._busy[protocol] -= 1
            if not self._busy[protocol]:
                del self._busy[protocol]
            self._due[protocol] = self._now() + self._seconds

    async def watch(self) -> None:
        """Ends those that wait too long, for ever."""
        while True:
            await asyncio.sleep(min(1.0, self._seconds / 4))
            self._end_those_due()

    def _end_those_due(self) -> None:
        now, before = self._now(), self._due
        self._made = {it: due for it, due in self._made.items() if due > now}
        alive = [it for server in self._servers for it in server.connections]
        self._due = {it: before.get(it, now + self._seconds) for it in alive}
        for it in alive:
            if it not in self._busy and self._due[it] <= now:
                transport: Optional[asyncio.Transport] = it.transport
                if transport is not None:
                    transport.abort()

    @staticmethod
    def _now() -> float:
        return asyncio.get_event_loop().time()


class Full(asyncio.Protocol):
    """Answers one connection too many."""

    def connection_made(self, transport: asyncio.BaseTransport) -> None:
        """Says so, and ends."""
        assert isinstance(transport, asyncio.Transport)
        transport.write(_FULL)
        transport.close()

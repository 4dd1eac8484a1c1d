"""The daemon: starting, signals, stopping."""

from __future__ import annotations

import argparse
import asyncio
import contextlib
import logging
import resource
import signal
import ssl
from collections import Counter
from pathlib import Path
from typing import Any, Callable, Dict, List, Optional, Tuple

from . import lists, listening
from .connections import Connections
from .desk import Desk
from .listening import CLAMD, HTTP, Listening
from .lists import Lists
from .over_clamd import Clamd
from .over_http import Api
from .settings import Settings, settings_of, token_in
from .workers import Ended

_LOG = logging.getLogger("storklocker")
_HANDSHAKE = 10.0
_BACKLOG = 512
STANDARD = ("127.0.0.1", 8470)
"""Where it listens where nothing is said."""


def run(asked: argparse.Namespace) -> int:
    """Serves up to a signal. Raises OSError for what can't be begun."""
    settings, token = settings_of(asked), token_in(asked.token)
    tls = _tls_of(asked)
    files = lists.named(asked.allow)
    found = lists.read(files)
    sockets = _sockets(asked)
    try:
        _require_token(sockets, bool(token))
        _widen_files(4 * settings.max_connections + 256)
        logging.basicConfig(format="storklocker: %(message)s", level=logging.INFO)
        daemon = Daemon(settings, files, found, token, tls)
        asyncio.run(daemon.serve(sockets))
    except Ended:
        raise OSError("the workers don't start: is --max-memory enough?") from None
    finally:
        listening.close(sockets)
    return 0


def _sockets(asked: argparse.Namespace) -> List[Listening]:
    found = listening.of_systemd()
    places = [*((HTTP, it) for it in [*asked.listen, *asked.unix])]
    if not places and not found:
        places = [(HTTP, STANDARD)]
    for protocol, place in [*places, *((CLAMD, it) for it in asked.clamd)]:
        found.append(listening.at(protocol, place, asked.unix_mode))
    return found


def _widen_files(wanted: int) -> None:
    """Permits so many open files, as far as this process may."""
    soft, hard = resource.getrlimit(resource.RLIMIT_NOFILE)
    most = wanted if hard == resource.RLIM_INFINITY else min(wanted, hard)
    if soft < most:
        resource.setrlimit(resource.RLIMIT_NOFILE, (most, hard))


def _require_token(sockets: List[Listening], has_token: bool) -> None:
    for it in sockets:
        if it.is_here:
            continue
        if it.protocol == CLAMD:
            raise OSError(f"{it}: clamd's protocol has no token: other machines may not reach it")
        if not has_token:
            raise OSError(f"{it}: other machines reach it: give --token")


def _tls_of(asked: argparse.Namespace) -> Optional[_Tls]:
    given = (asked.tls_certificate, asked.tls_key)
    if given == (None, None):
        return None
    if None in given:
        raise OSError("--tls-certificate and --tls-key must be given together")
    return _Tls(*given)


class _Tls:
    """The certificate of the server, which may be read again."""

    def __init__(self, certificate: Path, key: Path) -> None:
        self._files = certificate, key
        self.context = ssl.create_default_context(ssl.Purpose.CLIENT_AUTH)
        self.context.minimum_version = ssl.TLSVersion.TLSv1_2
        self.read()

    def read(self) -> None:
        """Reads it. Raises OSError."""
        try:
            self.context.load_cert_chain(*self._files, password=_no_password)
        except (OSError, ValueError) as error:  # (of which the text may say more than its kind)
            why = getattr(error, "reason", None) or type(error).__name__
            raise OSError(f"{self._files[0]}, {self._files[1]}: {why}") from None


def _no_password() -> str:
    """Raises, where a key has a password: nobody is there to type it."""
    raise ValueError("the key has a password")


class Daemon:
    """Everything that runs."""

    def __init__(
        self,
        settings: Settings,
        files: Dict[str, List[str]],
        found: Lists,
        token: bytes,
        tls: Optional[_Tls],
    ) -> None:
        self._settings, self._files, self._tls = settings, files, tls
        self._desk = Desk(settings, found)
        self._connections = Connections(settings.max_connections, settings.head_seconds)
        self._answered: "Counter[Tuple[str, int]]" = Counter()
        self._apis = {
            is_open: Api(
                self._desk, self._connections, b"" if is_open else token, self._answered
            )
            for is_open in (True, False)
        }
        self._clamd = Clamd(self._desk, self._connections)
        self._servers: List[asyncio.AbstractServer] = []
        self._runners: List[Any] = []

    async def serve(self, sockets: List[Listening]) -> None:
        """Serves up to a signal. Raises Ended and OSError."""
        await self._desk.workers.start()
        loop, ends, again = asyncio.get_running_loop(), asyncio.Event(), asyncio.Event()
        for number in (signal.SIGTERM, signal.SIGINT):
            loop.add_signal_handler(number, ends.set)
        loop.add_signal_handler(signal.SIGHUP, again.set)
        makers = {is_open: await self._maker(api) for is_open, api in self._apis.items()}
        for it in sockets:
            await self._listen(it, makers[it.is_unix])
            _LOG.info("Listening: %s", it)
        tasks = [
            loop.create_task(self._connections.watch()),
            loop.create_task(self._reload(again)),
        ]
        listening.told_to_systemd("READY=1")
        await ends.wait()
        listening.told_to_systemd("STOPPING=1")
        for task in tasks:
            task.cancel()
        await self._stop()

    async def _maker(self, api: Api) -> Callable[[], asyncio.BaseProtocol]:
        runner = api.runner()
        await runner.setup()
        self._runners.append(runner)
        return self._connections.maker(runner.server)

    async def _listen(self, it: Listening, maker: Callable[[], asyncio.BaseProtocol]) -> None:
        loop = asyncio.get_running_loop()
        words: Dict[str, Any] = {"sock": it.socket, "backlog": _BACKLOG}
        if self._tls is not None and it.protocol == HTTP and not it.is_unix:
            words.update(ssl=self._tls.context, ssl_handshake_timeout=_HANDSHAKE)
        if it.protocol == CLAMD:
            start = asyncio.start_unix_server if it.is_unix else asyncio.start_server
            server = await start(self._clamd.connected, **words)  # type: ignore[operator]
        elif it.is_unix:
            server = await loop.create_unix_server(maker, **words)
        else:
            server = await loop.create_server(maker, **words)
        self._servers.append(server)

    async def _reload(self, again: asyncio.Event) -> None:
        """Reads lists and certificates when it is told to, and now and then, for ever."""
        while True:
            with contextlib.suppress(asyncio.TimeoutError):
                await asyncio.wait_for(again.wait(), self._settings.reload)
            is_told = again.is_set()
            again.clear()
            await self._read_lists(is_told)
            if is_told and self._tls is not None:
                try:
                    self._tls.read()
                except OSError:
                    _LOG.error("The certificate could not be read, and stays as it was")

    async def _read_lists(self, is_told: bool) -> None:
        """Takes the lists as they are now; a fault leaves them as they were. Nothing of a list is
        logged: `storklocker lint` shows what is wrong.
        """
        try:
            found = lists.read(self._files)
            if found.etags != self._desk.lists.etags:
                await self._desk.workers.renew(found)
            elif not is_told:
                return
        except (OSError, Ended) as error:
            if is_told or not self._desk.is_stale:
                _LOG.error("The lists stay as they were: reading failed (%s)", _kind_of(error))
            self._desk.is_stale = True
            return
        self._desk.is_stale = False
        _LOG.info("The lists were read: %s", ", ".join(f"{k} {v}" for k, v in found.etags.items()))

    async def _stop(self) -> None:
        """Ends when what runs has been answered, at the latest after the time of a request."""
        _LOG.info("Stopping")
        for api in self._apis.values():
            api.is_ending = True
        for server in self._servers:
            server.close()
        end = self._desk.ends()
        while self._connections.busy + self._clamd.busy:
            await asyncio.sleep(0.02)
            if asyncio.get_running_loop().time() > end:
                break
        for runner in self._runners:
            await runner.cleanup()
        await self._desk.workers.end()


def _kind_of(error: Exception) -> str:
    return "the workers don't start" if isinstance(error, Ended) else "a file is missing or wrong"

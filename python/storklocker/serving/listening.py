"""The sockets: those that are asked for, and those that systemd hands over."""

from __future__ import annotations

import contextlib
import os
import socket
import stat
from typing import List, NamedTuple, Tuple, Union

from .settings import Address, is_here

HTTP, CLAMD = "http", "clamd"
_FIRST = 3
"""The number of the first socket that systemd hands over."""


class Listening(NamedTuple):
    """A socket that listens, and which protocol is spoken there."""

    protocol: str
    socket: socket.socket
    path: str = ""
    """The path to remove at the end, if it has one."""

    @property
    def is_unix(self) -> bool:
        """Whether permissions say who may connect."""
        return self.socket.family == socket.AF_UNIX

    @property
    def is_here(self) -> bool:
        """Whether only this machine reaches it."""
        return self.is_unix or is_here(self.socket.getsockname()[0])

    def __str__(self) -> str:
        name = self.socket.getsockname()
        if self.is_unix:
            return f"{self.protocol} on {name}"
        host = f"[{name[0]}]" if ":" in name[0] else name[0]
        return f"{self.protocol} on {host}:{name[1]}"


def at(protocol: str, place: Union[Address, str], mode: int) -> Listening:
    """A socket at a path or an address. Raises OSError that names it."""
    try:
        if isinstance(place, str):
            return Listening(protocol, _unix(place, mode), place)
        return Listening(protocol, _tcp(place))
    except OSError as error:
        where = place if isinstance(place, str) else f"{place[0]}:{place[1]}"
        raise OSError(f"{where}: {error.strerror or error}") from None


def _tcp(address: Address) -> socket.socket:
    family = socket.AF_INET6 if ":" in address[0] else socket.AF_INET
    made = socket.socket(family, socket.SOCK_STREAM)
    try:
        made.setsockopt(socket.SOL_SOCKET, socket.SO_REUSEADDR, 1)
        made.bind(address)
    except OSError:
        made.close()
        raise
    return made


def _unix(path: str, mode: int) -> socket.socket:
    """A socket that nobody else could connect to at any time."""
    _remove_if_left(path)
    made = socket.socket(socket.AF_UNIX, socket.SOCK_STREAM)
    before = os.umask(0o777 & ~mode)
    try:
        made.bind(path)
    except OSError:
        made.close()
        raise
    finally:
        os.umask(before)
    return made


def _remove_if_left(path: str) -> None:
    """Removes a socket at which nobody listens any more."""
    try:
        if not stat.S_ISSOCK(os.stat(path).st_mode):
            return
    except FileNotFoundError:
        return
    with socket.socket(socket.AF_UNIX, socket.SOCK_STREAM) as probe:
        try:
            probe.connect(path)
        except ConnectionRefusedError:
            os.unlink(path)


def of_systemd() -> List[Listening]:
    """The sockets that systemd hands over; those with `clamd` in their names speak its protocol."""
    if os.environ.get("LISTEN_PID") != str(os.getpid()):
        return []
    count = int(os.environ.get("LISTEN_FDS", "0"))
    names = os.environ.get("LISTEN_FDNAMES", "").split(":")
    found = []
    for number in range(count):
        name = names[number] if number < len(names) else ""
        made = socket.socket(fileno=_FIRST + number)
        os.set_inheritable(made.fileno(), False)
        found.append(Listening(CLAMD if CLAMD in name else HTTP, made))
    return found


def close(listening: List[Listening]) -> None:
    """Removes what stands in the file system."""
    for it in listening:
        it.socket.close()
        if it.path:
            with contextlib.suppress(OSError):
                os.unlink(it.path)


def told_to_systemd(word: str) -> None:
    """Tells systemd how it stands, if it asks."""
    path = os.environ.get("NOTIFY_SOCKET", "")
    if not path:
        return
    address = "\0" + path[1:] if path.startswith("@") else path
    with contextlib.suppress(OSError), socket.socket(socket.AF_UNIX, socket.SOCK_DGRAM) as to:
        to.sendto(word.encode(), address)



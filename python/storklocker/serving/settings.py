"""The options of `storklocker serve`, and the limits that they set."""

from __future__ import annotations

import argparse
import ipaddress
import os
from pathlib import Path
from typing import NamedTuple, Optional, Tuple, Union

from ..scanning.listed import GUARDED

_MIB = 1 << 20
LISTED = (
    "a list file, or @NAME,@NAME for shipped lists; requests ask for it by the NAME before =, and"
    " without that it is the default list; several of one name are united"
)


class Settings(NamedTuple):
    """What the options say."""

    workers: int
    guarded: bool
    max_bytes: int
    max_seconds: float
    max_connections: int
    max_memory: int
    reload: Optional[float] = None

    @property
    def head_seconds(self) -> float:
        """How long a connection may take to ask something, or to read the answer."""
        return min(10.0, self.max_seconds)


def add_options(it: argparse.ArgumentParser) -> None:
    """Adds the options of `serve`."""
    it.add_argument("--allow", action="append", metavar="[NAME=]LIST", required=True, help=LISTED)
    it.add_argument("--guarded", action="store_true", help=GUARDED)
    _add_addresses(it)
    _add_keys(it)
    _add_limits(it)
    it.add_argument(
        "--reload",
        type=_seconds,
        metavar="SECONDS",
        help="how often to look for changed list files; SIGHUP reads them too",
    )


def _add_addresses(it: argparse.ArgumentParser) -> None:
    it.add_argument(
        "--listen",
        type=address,
        action="append",
        default=[],
        metavar="ADDRESS:PORT",
        help="an address for HTTP; 127.0.0.1:8470 by default; addresses that other machines can"
        " reach need --token",
    )
    it.add_argument("--unix", action="append", default=[], metavar="PATH", help="a socket for HTTP")
    it.add_argument(
        "--clamd",
        type=place,
        action="append",
        default=[],
        metavar="ADDRESS",
        help="an address for clamd's protocol, which has no token: a path, or an address of this"
        " machine, such as 127.0.0.1:3310",
    )
    it.add_argument(
        "--unix-mode",
        type=_mode,
        default=0o600,
        metavar="MODE",
        help="the permissions of sockets with a path; 0600 by default",
    )


def _add_keys(it: argparse.ArgumentParser) -> None:
    it.add_argument(
        "--token", type=Path, metavar="FILE", help="a file with the token that requests must send"
    )
    it.add_argument(
        "--tls-certificate", type=Path, metavar="FILE", help="the certificates of the server, PEM"
    )
    it.add_argument("--tls-key", type=Path, metavar="FILE", help="the key of its certificate, PEM")


def _add_limits(it: argparse.ArgumentParser) -> None:
    it.add_argument(
        "--workers",
        type=_number,
        default=os.cpu_count() or 1,
        metavar="N",
        help="how many processes judge; by default as many as there are processors",
    )
    for option, value, what in (
        ("bytes", 256 * _MIB, "the most bytes of a body"),
        ("memory", 2048 * _MIB, "the most bytes of memory of a worker, and of all bodies together"),
        ("connections", 512, "the most connections"),
    ):
        it.add_argument(
            f"--max-{option}",
            type=_number,
            default=value,
            metavar="N",
            help=f"{what}; {value} by default",
        )
    it.add_argument(
        "--max-seconds",
        type=_seconds,
        default=30.0,
        metavar="SECONDS",
        help="how long a request may take; 30 by default",
    )


def settings_of(asked: argparse.Namespace) -> Settings:
    """What the options say of limits."""
    return Settings(
        asked.workers,
        asked.guarded,
        asked.max_bytes,
        asked.max_seconds,
        asked.max_connections,
        asked.max_memory,
        asked.reload,
    )


def _number(word: str) -> int:
    if not word.isdecimal() or not 1 <= int(word[:20]) < 1 << 48:
        raise argparse.ArgumentTypeError("expected a number from 1 on")
    return int(word)


def _seconds(word: str) -> float:
    try:
        number = float(word)
    except ValueError:
        number = 0.0
    if not 0.01 <= number <= 86400:
        raise argparse.ArgumentTypeError("expected a number of seconds, at most a day")
    return number


def _mode(word: str) -> int:
    try:
        mode = int(word, 8)
    except ValueError:
        mode = -1
    if not 0 <= mode <= 0o777:
        raise argparse.ArgumentTypeError("expected permissions, such as 0660")
    return mode


Address = Tuple[str, int]


def address(word: str) -> Address:
    """The address and the port in a word such as 127.0.0.1:8470 or [::1]:8470."""
    host, colon, port = word.rpartition(":")
    host = host[1:-1] if host.startswith("[") and host.endswith("]") else host
    try:
        ipaddress.ip_address(host)
    except ValueError:
        host = "127.0.0.1" if host == "localhost" else ""
    if not (host and colon and port.isdecimal() and int(port[:6]) < 1 << 16):
        raise argparse.ArgumentTypeError("expected an address and a port, such as 127.0.0.1:8470")
    return host, int(port)


def place(word: str) -> Union[Address, str]:
    """A path, or an address and a port."""
    return word if "/" in word else address(word)


def is_here(host: str) -> bool:
    """Whether only this machine reaches an address."""
    return ipaddress.ip_address(host).is_loopback


def token_in(path: Optional[Path]) -> bytes:
    """The token in a file; none without one. Raises OSError."""
    if path is None:
        return b""
    token = path.read_bytes().strip()
    if len(token) < 16 or not token.isascii() or len(token.split()) != 1:
        raise OSError(f"{path} must have a token in one word of 16 bytes or more")
    return token



"""Values in stores and queues elsewhere, which are read and stay where they are."""

from __future__ import annotations

import hashlib
import importlib
from typing import Any, NamedTuple, Tuple
from urllib.parse import parse_qsl, quote_from_bytes, urlsplit, urlunsplit

from .file import File
from .lacking import needs
from .report import Finding, unreadable

MOST = 1 << 28
"""The most bytes of a value that are read."""
SECONDS = 60
"""How long a server may give nothing."""


class Asked(NamedTuple):
    """A URL that was asked for."""

    url: str
    """It without what follows `?`, for the client of the server."""
    shown: str
    """It without a name and a password, as reports have it."""
    words: Tuple[Tuple[str, str], ...]
    """What follows `?`."""

    def word(self, name: str, otherwise: str = "") -> str:
        """One of the words."""
        return dict(self.words).get(name, otherwise)

    def package(self, name: str) -> Any:
        """The client, a package that may be missing."""
        try:
            return importlib.import_module(name)
        except ImportError:
            raise needs(self.shown, name.partition(".")[0]) from None

    def value(self, place: str, value: bytes) -> File:
        """A value that was read, and where."""
        stamp = hashlib.sha256(value).hexdigest()
        return File(f"{self.shown}/{place}", True, len(value), stamp, value=value)

    def unread(self, place: str, why: str) -> File:
        """A value that can't be read."""
        path = f"{self.shown}/{place}" if place else self.shown
        report = unreadable(path, "value", Finding("unreadable", why), path)
        return File(path, True, known=(report,))


def asked_by(url: str, known: Tuple[str, ...]) -> Asked:
    """What a URL asks for."""
    try:
        parts = urlsplit(url)
    except ValueError as error:
        raise OSError(f"{url.partition('://')[0]}: a URL can't be read: {error}") from None
    words = tuple(parse_qsl(parts.query, keep_blank_values=True, errors="surrogateescape"))
    for name, _ in words:
        if name not in known:
            raise OSError(f"{parts.scheme}: URLs have {', '.join(known)} behind ?, and not {name}")
    host = parts.netloc.rpartition("@")[2]
    bare = urlunsplit((parts.scheme, parts.netloc, parts.path, "", ""))
    return Asked(bare, f"{parts.scheme}://{host}{parts.path.rstrip('/')}", words)


def is_plain(name: bytes) -> bool:
    """Whether a name is a text that no reader unpickles."""
    return name.isascii() and name.decode("ascii").isprintable()


def spelled(name: bytes) -> str:
    """A name of a store, as part of a path."""
    return quote_from_bytes(name, safe=":{}@.-_,=+")

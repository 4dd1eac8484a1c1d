"""A file to scan."""

from __future__ import annotations

from typing import NamedTuple, Optional, Tuple

from .report import Report


class File(NamedTuple):
    """A file to scan."""

    path: str
    is_opened: bool = True
    """Whether to open it: it is a regular file, or it was named on the command line."""
    size: int = 0
    """Its size in bytes, where that is known."""
    stamp: str = ""
    """What changes whenever the file does, where that is known."""
    known: Optional[Tuple[Report, ...]] = None
    """The reports on it, of an earlier scan."""
    held: str = ""
    """Where its bytes are, if not in `path`."""
    value: Optional[bytes] = None
    """Its bytes, if it is a value of a store or a message of a queue, which come with it."""


def is_url(path: str) -> bool:
    """Whether a path is one for fsspec, such as `s3://bucket/folder`."""
    return "://" in path

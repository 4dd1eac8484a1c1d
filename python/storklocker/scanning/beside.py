"""The file with the places of values, which stands beside that with the values."""

from __future__ import annotations

import contextlib
import io
import os
from typing import Optional

from .budget import TooMuch
from .file import File, is_url
from .places import places_of
from .source import Source, in_memory

_MOST = 1 << 26
"""The most bytes of it that are read."""


def beside(file: File) -> Optional[Source]:
    """The file beside one that is scanned, if there is one."""
    path = places_of(file.held or file.path)
    if not path:
        return None
    data = _of_url(path) if is_url(path) else _of_file(path)
    if data is not None and len(data) > _MOST:
        raise TooMuch(f"{os.path.basename(path)} has more than {_MOST:,} bytes")
    return None if data is None else in_memory(io.BytesIO(data))


def _of_file(path: str) -> Optional[bytes]:
    if not os.path.exists(path) or os.path.isdir(path):
        return None
    if not os.path.isfile(path):
        raise OSError(f"{path} is not a regular file")
    with open(path, "rb") as opened:
        return opened.read(_MOST + 1)


def _of_url(path: str) -> Optional[bytes]:
    from .remote import opened  # few files are at URLs

    with contextlib.suppress(FileNotFoundError), opened(path) as file:
        return file.read(_MOST + 1)
    return None

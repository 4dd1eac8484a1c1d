"""Files at a bounded rate, and those that are added while a scan goes on."""

from __future__ import annotations

import hashlib
import time
from typing import Dict, Iterable, Iterator

from .file import File
from .files import Files

_PAUSE, _SHARE = 1.0, 4
"""The seconds after which sources are looked at again; and how many times what the last look took.
"""
_MOST = 1_000_000
"""So many files are known again."""


def paced(files: Iterable[File], rate: float) -> Iterator[File]:
    """The files, of which at most so many a second are to be read."""
    due = time.monotonic()
    for file in files:
        if file.known is None:
            time.sleep(max(0.0, due - time.monotonic()))
            due = max(due, time.monotonic()) + 1 / rate
        yield file


def grown(files: Files) -> Iterator[File]:
    """The files, and without an end those that have been added or have changed since."""
    known: Dict[bytes, None] = {}
    while True:
        began = time.monotonic()
        for file in files:
            mark = _mark(file)
            if mark not in known:
                yield file
            known.pop(mark, None)
            known[mark] = None  # (the last that is forgotten)
            if len(known) > _MOST:
                del known[next(iter(known))]
        time.sleep(max(_PAUSE, _SHARE * (time.monotonic() - began)))


def _mark(file: File) -> bytes:
    """What a file is known by: its place and what changes with it, or the bytes that it is."""
    parts = (file.path, file.stamp) if file.value is None else (file.path.rpartition("!")[0], "")
    made = hashlib.sha256(repr(parts).encode())
    made.update(file.value or b"")
    return made.digest()

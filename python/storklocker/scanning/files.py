"""The files to scan, one after another: a million names never stand in one list."""

from __future__ import annotations

import itertools
import operator
import os
import sys
from typing import Callable, Dict, Iterable, Iterator, List, Optional

from .choosing import Choice
from .file import File, is_url
from .places import places_of

_BLOCK = 100_000
"""How many entries of a folder are sorted at once."""
_SYSTEM = frozenset(("/dev", "/proc", "/sys"))
"""Folders of devices, and of what looks like files."""


class Files:
    """The files among the paths, and those in the folders that are chosen; unless not `recursive`,
    in subfolders too. `is_measured` gives their sizes and stamps, which take a call for each.

    left_out: the number of subfolders skipped without `recursive`.
    positions: how far each log was read that keeps what was read.
    """

    def __init__(
        self,
        paths: Iterable[str],
        recursive: bool = True,
        choice: Optional[Choice] = None,
        is_measured: bool = True,
    ) -> None:
        self._paths, self.recursive, self.choice = list(paths), recursive, choice or Choice()
        self._roots = {os.path.realpath(path) for path in self._paths if os.path.isdir(path)}
        self._left = {above for root in self._roots for above in _parents(root)} | _SYSTEM
        self._file: Callable[[str], File] = File
        if is_measured:
            self._file = _measured
        self.left_out = 0
        self.positions: Dict[str, int] = {}

    def __iter__(self) -> Iterator[File]:
        for path in self._paths:
            if scheme_of(path) in QUEUES:
                yield from _values_at(path, self)
            elif is_url(path):
                from .remote import files_at  # few files are at URLs

                yield from files_at(path, self)
            elif path != "-" and os.path.isdir(path):
                yield from self._files_of(path)
            else:
                yield self._file(path)

    def _files_of(self, folder: str) -> Iterator[File]:
        try:
            with os.scandir(folder) as found:
                yield from self._entered(found)
        except OSError:
            yield File(folder)  # reported as unreadable, like a file

    def _entered(self, found: Iterator["os.DirEntry[str]"]) -> Iterator[File]:
        below = []
        for entry in _sorted(found):
            if _is(entry.is_file):
                if self.choice.takes(entry.path):
                    yield self._file(entry.path)
                continue
            is_folder = _is(entry.is_dir)
            if not self.choice.takes(entry.path, is_folder):
                continue
            if not is_folder:
                yield File(entry.path, False)
            elif not self.recursive:
                self.left_out += 1
            elif not entry.is_symlink() and not _is_system(entry):
                below.append(entry.path)
            elif self._is_followed(entry.path):
                below.append(entry.path)
            elif not self._has(os.path.realpath(entry.path)):
                yield File(entry.path, False)
        for path in below:
            yield from self._files_of(path)

    def _is_followed(self, link: str) -> bool:
        """Whether to enter the folder that a link leads to: once, but not one that holds this one,
        nor one of devices.
        """
        target = os.path.realpath(link)
        if self._has(target) or target in self._left or not _SYSTEM.isdisjoint(_parents(target)):
            return False
        self._roots.add(target)
        return True

    def _has(self, folder: str) -> bool:
        """Whether a folder is scanned anyway."""
        return not self._roots.isdisjoint((folder, *_parents(folder)))


def batches(files: Iterable[File], most: int, room: int) -> Iterator[List[File]]:
    """The files in batches of at most so many files, each ended by the one that fills its bytes."""
    batch: List[File] = []
    size = 0
    for file in files:
        batch.append(file)
        size += file.size
        if len(batch) >= most or size >= room:
            yield batch
            batch, size = [], 0
    if batch:
        yield batch


def _is_system(entry: "os.DirEntry[str]") -> bool:
    return f"/{entry.name}" in _SYSTEM and os.path.realpath(entry.path) in _SYSTEM


def _parents(path: str) -> Iterator[str]:
    while os.path.dirname(path) != path:
        path = os.path.dirname(path)
        yield path


def names_from(path: str, is_null: bool) -> List[str]:
    """The paths that a file names, `-` is standard input: a line each, or each up to a NUL."""
    if path == "-":
        data = sys.stdin.buffer.read()
    else:
        with open(path, "rb") as opened:
            data = opened.read()
    found = [os.fsdecode(it) for it in data.split(b"\0" if is_null else b"\n") if it]
    # (a file of this name is meant, and not standard input)
    return [os.path.join(".", it) if it == "-" else it for it in found]


QUEUES = ("redis", "rediss", "amqp", "amqps", "kafka")
"""The schemes of stores and queues, whose values are scanned one by one."""


def scheme_of(path: str) -> str:
    """The scheme of a URL; an empty text for a path."""
    scheme, mark, _ = path.partition("://")
    return scheme if mark else ""


def _values_at(url: str, files: Files) -> Iterator[File]:
    """The values at a URL of a store or a queue, one after another."""
    from .queues import asked_by  # few files are such values

    if url.startswith("redis"):
        from .redis_values import values_in_redis  # (the same)

        return values_in_redis(asked_by(url, ("match",)), files)
    if url.startswith("amqp"):
        from .amqp_messages import messages_in_queue  # (the same)

        return messages_in_queue(asked_by(url, ("queue",)))
    from .kafka_messages import messages_of_topic  # (the same)

    return messages_of_topic(asked_by(url, ()), files)


def _measured(path: str) -> File:
    try:
        found = os.stat(path)
    except OSError:
        return File(path)
    return File(path, True, found.st_size, f"{_stamp(found)}{_stamp_beside(path)}")


def _stamp(found: os.stat_result) -> str:
    return f"{found.st_size} {found.st_mtime_ns} {found.st_ctime_ns} {found.st_ino}"


def _stamp_beside(path: str) -> str:
    """The stamp of the file that says where the values in this one are."""
    places = places_of(path)
    try:
        return f" {_stamp(os.stat(places))}" if places else ""
    except OSError:
        return ""


def _sorted(found: Iterator["os.DirEntry[str]"]) -> Iterator["os.DirEntry[str]"]:
    """The entries in the order of their names, in blocks: a folder may hold a million."""
    while True:
        block = sorted(itertools.islice(found, _BLOCK), key=operator.attrgetter("name"))
        if not block:
            return
        yield from block


def _is(question: Callable[[], bool]) -> bool:
    try:
        return question()
    except OSError:  # a link to itself
        return False

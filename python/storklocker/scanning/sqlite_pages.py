"""The records of SQLite's files, as SQLite reads them: a long one lies in a chain of pages.

A database is read from its table of tables on, tree by tree. Of a log or a journal, whose pages
SQLite puts into the database, each page is read. What SQLite would not read is passed over: a page
of another kind, a record that leaves its page. That pages belong together isn't checked, since
SQLite reads them anyway.
"""

from __future__ import annotations

import bisect
import struct
from typing import Callable, Dict, Iterator, List, NamedTuple, Optional, Set, Tuple

from .source import Source, joined

DATABASE = b"SQLite format 3\0"
LOGS = (b"\x37\x7f\x06\x82", b"\x37\x7f\x06\x83")
JOURNAL = b"\xd9\xd5\x05\xf9\x20\xa1\x63\xd7"
_TREES: Dict[int, Tuple[int, bool, bool]] = {
    2: (12, True, True),
    5: (12, True, False),
    10: (8, False, True),
    13: (8, False, True),
}
"""The kinds of pages: the length of the header, and whether its cells have a page below them, and
a record.
"""
_TABLE, _BEGIN = 13, 100
"""The kind whose cells have a number in front of the record; the length of the file's header."""
_LEAST, _MOST, _LONGEST = 480, 1 << 16, 98_307
"""The least bytes of a page that SQLite uses and the most that it has, and the most of a record's
header that it reads.
"""
_FRAME, _ALL = 24, (1 << 32) - 1
"""The bytes in front of a page of a log; the number of pages of a journal that says none."""
_ROOT = 3
"""The column of the table of tables with the page at which a tree begins."""
_SIZES = (0, 1, 2, 3, 4, 6, 8, 8, 0, 0, 0, 0)
"""The bytes of a number, by its type; texts and blobs have the types behind these."""


class Value(NamedTuple):
    """A value of a record."""

    kind: int
    at: int
    """Where it begins in the record."""
    size: int

    @property
    def is_text(self) -> bool:
        return self.kind % 2 == 1

    @property
    def is_long(self) -> bool:
        """Whether it is a text or a blob."""
        return self.kind >= len(_SIZES)


class Record:
    """A row, or a key of an index.

    parts: where its bytes are in the file, and how many, each.
    front: the bytes of the first part.
    """

    def __init__(self, source: Source, parts: List[Tuple[int, int]], front: bytes) -> None:
        self._source, self.parts, self.front = source, parts, front

    @property
    def source(self) -> Source:
        """All its bytes."""
        return joined(self._source, self.parts)

    def values(self) -> List[Value]:
        """Its texts and blobs."""
        return [value for value in self._values() if value.is_long]

    def text(self, encoding: str) -> str:
        """Its texts, one behind another."""
        source, size = self.source, sum(size for _, size in self.parts)
        texts = (source.read(it.at, min(it.size, size)) for it in self.values())
        return " ".join(text.decode(encoding, "replace") for text in texts)

    def root(self) -> int:
        """Of a row of the table of tables, the page at which the tree begins; 0 if it has none."""
        for value in self._values()[_ROOT : _ROOT + 1]:
            data = self.source.read(value.at, min(value.size, 8))
            return 1 if value.kind == 9 else int.from_bytes(data, "big")
        return 0

    def _values(self) -> List[Value]:
        data, size = self.front, sum(size for _, size in self.parts)
        at, _ = _number(data, 0)
        if at > len(data):
            data = self.source.read(0, at) if at <= _LONGEST else b""
        found = []
        for value in values_of(data[:at])[0]:
            if value.at + value.size > size:
                break
            found.append(value)
        return found


def values_of(header: bytes) -> Tuple[List[Value], int]:
    """The values of a record with this header, and the size of the record."""
    (at, place), found = _number(header, 0), []
    while place < len(header):
        kind, place = header[place], place + 1
        if kind > 127:
            kind, place = _number(header, place - 1)
        count = _SIZES[kind] if kind < len(_SIZES) else (kind - len(_SIZES)) // 2
        found.append(Value(kind, at, count))
        at += count
    return found, at


class Pages:
    """The pages of a database, of its log, or of its journal.

    encoding: that of texts, if it isn't UTF-8.
    """

    def __init__(self, source: Source, tick: Callable[[], object]) -> None:
        self._source, self._tick = source, tick
        self._size = self._kept = 0
        self._places: Optional[Dict[int, int]] = None
        self._starts: List[int] = []
        self.left: Optional[Callable[[bytes, int, int, int, bool], Optional[List[int]]]] = None
        """Gives the cells of a page that are to be read one by one, if not all are."""
        self.schema: List[str] = []
        """The rows of the table of tables that were read so far, as texts."""
        self.encoding, front = "", source.read(0, _BEGIN)
        if len(front) < _BEGIN:
            return
        if front.startswith(DATABASE):
            size, self._kept = struct.unpack_from(">H", front, 16)[0], front[20]
            coding = struct.unpack_from(">I", front, 56)[0]
            self.encoding = {2: "utf-16-le", 3: "utf-16-be"}.get(coding, "")
        else:
            size = struct.unpack_from(">I", front, 8 if front.startswith(LOGS) else 24)[0]
        size = _MOST if size == 1 else size
        if not (_LEAST + self._kept <= size <= _MOST and size & (size - 1) == 0):
            return
        self._size = size
        if not front.startswith(DATABASE):
            frames = self._frames() if front.startswith(LOGS) else self._saved()
            self._places = dict(frames)
            self._starts.sort()

    def _frames(self) -> Iterator[Tuple[int, int]]:
        """The number of each page in a log, and where it is."""
        at = 32
        while at + _FRAME + self._size <= self._source.size:
            yield self._page_at(at, _FRAME)
            at += _FRAME + self._size

    def _saved(self) -> Iterator[Tuple[int, int]]:
        """The number of each page in a journal, and where it is. Each part has a header."""
        at = 0
        while True:
            _, count, _, _, sector = struct.unpack(">8s4I", self._source.read(at, 24).ljust(24))
            if self._source.read(at, 8) != JOURNAL or not 32 <= sector <= _MOST:
                return
            at += sector
            left = count or _ALL
            while left and at + 8 + self._size <= self._source.size:
                yield self._page_at(at, 4)
                at, left = at + 8 + self._size, left - 1
            at = -(-at // sector) * sector

    def _page_at(self, at: int, front: int) -> Tuple[int, int]:
        """The number of a page, and where it is, behind so many bytes that begin with its number.
        """
        self._tick()
        self._starts.append(at + front)
        return _four(self._source.read(at, 4), 0), at + front

    def end_of(self, at: int) -> int:
        """Where the page ends that has a place of the file."""
        if self._places is None:
            return (at // self._size + 1) * self._size if self._size else self._source.size
        number = bisect.bisect_right(self._starts, at)
        start = self._starts[number - 1] if number else 0
        if number and at < start + self._size:
            return start + self._size
        return self._starts[number] if number < len(self._starts) else self._source.size

    def records(self) -> Iterator[Record]:
        """All records that SQLite can get to."""
        if not self._size:
            return
        if self._places is not None:
            yield from self._below(list(self._places))
            return
        roots: List[int] = []
        for record in self._below([1], True):
            roots.append(record.root())
            self.schema.append(record.text(self.encoding or "utf-8"))
            yield record
        yield from self._below(roots)

    def _below(self, left: List[int], is_whole: bool = False) -> Iterator[Record]:
        """The records in these pages and those below them; with `is_whole`, also short ones."""
        seen: Set[int] = set()
        while left:
            number = left.pop()
            at = self._place(number)
            if number in seen or at < 0:
                continue
            seen.add(number)
            self._tick()
            page, begin = self._source.read(at, self._size), _BEGIN * (number == 1)
            if page[begin] not in _TREES:
                continue
            _, is_inner, has_records = _TREES[page[begin]]
            left += [_four(page, begin + 8)] * is_inner
            places, left_to_read = self._places_of(page, begin), None
            if self.left is not None and not (is_inner or is_whole or self.encoding):
                left_to_read = self.left(page, at, *places, page[begin] == _TABLE)
            for cell in self._cells(page, *places) if left_to_read is None else left_to_read:
                if is_inner:
                    left.append(_four(page, cell))
                if has_records:
                    yield from self._record(page, at, cell + 4 * is_inner, page[begin] == _TABLE)

    def _places_of(self, page: bytes, begin: int) -> Tuple[int, int]:
        """Where the places of the cells of a page are, and how many."""
        at, count = begin + _TREES[page[begin]][0], struct.unpack_from(">H", page, begin + 3)[0]
        is_possible = count <= (self._size - 8) // 6 and at + 2 * count <= self._size
        return at, count if is_possible else 0

    def _cells(self, page: bytes, at: int, count: int) -> List[int]:
        """Where the cells of a page are."""
        found = struct.unpack_from(f">{count}H", page, at)
        return [cell & self._size - 1 for cell in dict.fromkeys(found)]

    def _record(self, page: bytes, start: int, at: int, is_of_table: bool) -> Iterator[Record]:
        """The record of a cell, whose page begins at a place of the file, if it has one."""
        size, at = _length(page, at)
        if is_of_table:
            _, at = _number(page, at)
        usable = self._size - self._kept
        least = (usable - 12) * 32 // 255 - 23
        most = usable - 35 if is_of_table else (usable - 12) * 64 // 255 - 23
        local = size
        if size > most:
            local = least + (size - least) % (usable - 4)
            local = least if local > most else local
        if 0 < local <= len(page) - at:
            parts = [(start + at, local)]
            if local < size:
                size = min(size, self._source.size)  # as many as SQLite reads
                parts += self._chain(_four(page, at + local), size - local)
            yield Record(self._source, parts, page[at : at + local])

    def _chain(self, number: int, left: int) -> Iterator[Tuple[int, int]]:
        """The parts of a record in a chain of pages, which begins with this one."""
        while left > 0:
            at = self._place(number)
            if at < 0:
                return
            self._tick()
            size = min(left, self._size - self._kept - 4)
            yield at + 4, size
            left -= size
            number = _four(self._source.read(at, 4), 0)

    def _place(self, number: int) -> int:
        """Where a page begins in the file; less than 0 if it isn't there."""
        if self._places is not None:
            return self._places.get(number, -1)
        at = (number - 1) * self._size
        return at if at + self._size <= self._source.size else -1


def _four(data: bytes, at: int) -> int:
    return int.from_bytes(data[at : at + 4], "big")


def _number(data: bytes, at: int) -> Tuple[int, int]:
    """A number of up to nine bytes, as SQLite reads one of 32 bits, and where the next one is."""
    number = 0
    for place in range(at, min(at + 8, len(data))):
        byte = data[place]
        number = number << 7 | byte & 127
        if byte < 128:
            return min(number, (1 << 32) - 1), place + 1
    last = data[at + 8] if at + 8 < len(data) else 0
    return min(number << 8 | last, (1 << 32) - 1), at + 9


def _length(data: bytes, at: int) -> Tuple[int, int]:
    """The length of a record, of which SQLite keeps 32 bits, and where the next number is."""
    number = 0
    for place in range(at, min(at + 9, len(data))):
        number = number << 7 | data[place] & 127
        if data[place] < 128:
            return number & (1 << 32) - 1, place + 1
    return number & (1 << 32) - 1, at + 9

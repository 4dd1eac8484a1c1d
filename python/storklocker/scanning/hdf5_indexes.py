"""Where the chunks of HDF5's datasets are, in the order in which a dataset has them.

The messages that describe a dataset's layout are looked for anywhere, as those on filters are, and
each leads to the index of its chunks: a tree of version 1 or 2, or an array that is fixed or may be
extended.
"""

from __future__ import annotations

import math
import re
from typing import Callable, Dict, Iterator, List, NamedTuple, Optional, Set, Tuple

from .budget import STEP, Budget
from .hdf5_rows import NEAR, beside, counts_near
from .source import BLOCK, Source

_LAYOUT = re.compile(rb"\x03\x02[\2-\x21]|[\4\5]\x02[\0-\3][\2-\x21][\1-\x08]")
"""A message on a layout in chunks, of version 3 or of a later one: up to the number of dimensions,
of which the last is the size of an item; or up to the width of each.
"""
_LONGEST = 512
"""More bytes than such a message has."""
_WIDTHS, _MOST_NODES = (2, 4, 8), 1 << 16
_SKIPPED = {3: 1, 4: 5, 5: 6}
"""The bytes of a message between the kind of an index and its address, by the kind: a fixed array,
one that may be extended, and a tree of version 2.
"""
_SIGNATURE, _PREFIX, _SUM = 4, 6, 4


class Chunk(NamedTuple):
    """The place of a chunk in the file, its size there, and the filters that were left out."""

    at: int
    size: int
    mask: int


class _Layout(NamedTuple):
    """Where an index is, the number of dimensions, the bytes of a chunk without filters, and its
    dimensions, of which the last is the size of an item.
    """

    address: int
    rank: int
    size: int
    dims: Tuple[int, ...]


_Entries = List[Tuple[Tuple[int, ...], Chunk]]
"""Chunks, each with the place in its dataset."""


class Dataset(NamedTuple):
    """The chunks of a dataset in their order; those that lie beside one another, if these have
    several rows; and the bytes of a row that one of them has.
    """

    chunks: List[Chunk]
    beside: List[List[Chunk]]
    width: int


def datasets_in(source: Source, start: int, budget: Budget) -> Iterator[Dataset]:
    """Each dataset of the file whose first block is at an offset."""
    file = _File(source, start, budget)
    seen: Set[_Layout] = set()
    for at in range(0, source.size, BLOCK) if file.width in _WIDTHS else ():
        block = source.read(at, BLOCK + _LONGEST)
        for found in _LAYOUT.finditer(block, 0, BLOCK + 4):
            budget.spend(3)
            place = at + found.start()
            layout, reader = file.layout(block[found.start() : found.start() + _LONGEST])
            if layout is not None and layout not in seen:
                seen.add(layout)
                budget.spend()
                entries = sorted(reader(layout), key=lambda it: it[0])
                if entries:
                    yield file.dataset(layout, entries, source.read(max(place - NEAR, 0), 2 * NEAR))


class _File:
    """The numbers of a file."""

    def __init__(self, source: Source, start: int, budget: Budget) -> None:
        self._source, self._start, self._budget = source, start, budget
        front = source.read(start, 16).ljust(16, b"\0")
        place = 13 if front[8] < 2 else 9
        self.width, self._length = front[place], front[place + 1]
        self._arrays: Dict[bytes, Callable[[_Layout], _Entries]] = {
            b"TREE": self._tree, b"FAHD": self._fixed, b"EAHD": self._extensible,
            b"BTHD": self._tree_2,
        }

    def _read(self, address: int, count: int) -> bytes:
        """So many bytes at an address; zeros for what the file lacks."""
        self._budget.spend(STEP + count // 32)
        return self._source.read(self._start + address, count).ljust(count, b"\0")

    def layout(
        self, data: bytes
    ) -> Tuple[Optional[_Layout], Callable[["_Layout"], _Entries]]:
        """The layout that a message tells, and what reads its index; None if it isn't one."""
        place, dims = 3 + self.width, 4
        rank, address = data[2], _number(data[3:place])
        if data[0] > 3:
            rank, dims = data[3], data[4]
            place = 5 + rank * dims
            kind = data[place] if place < len(data) else 0
            begin = place + 1 + _SKIPPED.get(kind, 0)
            address = _number(data[begin : begin + self.width])
            place = 5
        ends = range(place + dims, place + (rank + 1) * dims, dims)
        its = tuple(_number(data[end - dims : end]) for end in ends)
        size = math.prod(its)
        if not 0 < size < self._source.size << 10 or address >= self._source.size:
            return None, self._tree
        reader = self._arrays.get(self._source.read(self._start + address, _SIGNATURE))
        if reader is None:
            return None, self._tree
        return _Layout(address, rank - 1, size, its), reader

    def dataset(self, layout: _Layout, entries: _Entries, near: bytes) -> Dataset:
        """The dataset of these chunks, whose size some bytes may tell."""
        *dims, item = layout.dims
        chunks = [chunk for _, chunk in entries]
        if len(dims) < 2:
            return Dataset(chunks, [], layout.size)
        self._budget.spend(len(entries) // 8)
        counts = counts_near(near, dims, self._length)
        return Dataset(chunks, list(beside(entries, dims, counts)), dims[-1] * item)

    # ---- the indexes

    def _tree(self, layout: _Layout) -> _Entries:
        """A tree of version 1, whose nodes have a key in front of each address."""
        found: _Entries = []
        left, seen = [layout.address], set()  # type: List[int], Set[int]
        key, front = 8 * (layout.rank + 2), 8 + 2 * self.width
        step = key + self.width
        while left and len(seen) < _MOST_NODES:
            address = left.pop()
            node = self._read(address, front)
            if address in seen or node[:5] != b"TREE\1":
                continue
            seen.add(address)
            count, level = _number(node[6:8]), node[5]
            if count * step > self._source.size:
                continue
            self._budget.spend(2 * count)
            body = self._read(address + front, count * step)
            for at in range(0, count * step, step):
                child = _number(body[at + key : at + step])
                if level:
                    left.append(child)
                    continue
                size, mask = _number(body[at : at + 4]), _number(body[at + 4 : at + 8])
                offsets = tuple(_number(body[it : it + 8]) for it in range(at + 8, at + key, 8))
                found.append((offsets, self._chunk(child, size, mask)))
        return found

    def _fixed(self, layout: _Layout) -> _Entries:
        head = self._read(layout.address, 8 + self._length + self.width)
        count = _number(head[8 : 8 + self._length])
        if count * head[6] > self._source.size:
            return []
        address, front = _number(head[8 + self._length :]), _PREFIX + self.width
        pages = -(-count >> head[7]) if head[7] < 64 and count > 1 << head[7] else 0
        front += -(-pages // 8) + _SUM if pages else 0
        items = self._items(address + front, count, head[6], head[7])
        return [((number,), it) for number, it in enumerate(self._chunks(items, layout)) if it]

    def _items(self, address: int, count: int, size: int, page_bits: int) -> List[bytes]:
        """The items of a block, which has sums behind its pages if it has several."""
        page = 1 << page_bits if page_bits < 32 and count > 1 << page_bits else max(count, 1)
        found: List[bytes] = []
        while count > 0:
            held = self._read(address, min(page, count) * size)
            self._budget.spend(2 * min(page, count))
            found += [held[at : at + size] for at in range(0, len(held), size)] if size else []
            address, count = address + page * size + _SUM, count - page
        return found

    def _extensible(self, layout: _Layout) -> _Entries:
        width, place = self.width, 12 + 6 * self._length
        head = self._read(layout.address, place + width)
        size, bits, first, least, pointers, page_bits = head[6:12]
        if not (size and least and pointers and bits <= 64):
            return []
        address, own = _number(head[place:]), _PREFIX + width
        blocks = 2 * (pointers - 1)
        held = self._read(address, own + first * size + (blocks + bits + 1) * width)
        items = [held[at : at + size] for at in range(own, own + first * size, size)]
        addresses = self._addresses(held[own + first * size :])
        front, level, left = own + -(-bits // 8), 0, addresses[:blocks]
        upper = iter(addresses[blocks:])
        while left or level <= bits - least.bit_length() + 1:
            count, each = 1 << level // 2, least << (level + 1) // 2
            if left:
                these, left = left[:count], left[count:]
            else:
                these = self._of_upper(next(upper, -1), front, count, each, page_bits)
            for block in these:
                is_paged = page_bits < 32 and each > 1 << page_bits
                if 0 <= block < self._source.size and each * size <= self._source.size:
                    at = block + front + (_SUM if is_paged else 0)
                    items += self._items(at, each, size, page_bits)
            level += 1
        return [((number,), it) for number, it in enumerate(self._chunks(items, layout)) if it]

    def _of_upper(
        self, address: int, front: int, count: int, each: int, page_bits: int
    ) -> List[int]:
        """The addresses of the blocks that a block has which leads to others."""
        if not 0 <= address < self._source.size or count > self._source.size:
            return []
        is_paged = page_bits < 32 and each > 1 << page_bits
        bits = -(-(each >> page_bits) // 8) * count if is_paged else 0
        return self._addresses(self._read(address + front + bits, count * self.width))

    def _tree_2(self, layout: _Layout) -> _Entries:
        head = self._read(layout.address, 16 + self.width + 2)
        kind, node, record = head[5], _number(head[6:10]), _number(head[10:12])
        depth = _number(head[12:14])
        if kind not in (10, 11) or not 0 < record <= node or depth > 16:
            return []
        most = (node - _PREFIX - _SUM) // record
        width, total, pointers = _bytes_for(most), most, [0]
        for level in range(depth):
            more = 0 if not level else _bytes_for(total)
            pointers.append(self.width + width + more)
            inner = (node - _PREFIX - _SUM - pointers[-1]) // (record + pointers[-1])
            total = (inner + 1) * total + inner
        found: _Entries = []
        left = [(_number(head[16 : 16 + self.width]), _number(head[16 + self.width :]), depth)]
        seen: Set[int] = set()
        while left and len(seen) < _MOST_NODES:
            address, count, level = left.pop()
            if address in seen or address >= self._source.size or count * record > node:
                continue
            seen.add(address)
            self._budget.spend(2 * count)
            held = self._read(address, node)[_PREFIX:]
            for at in range(0, count * record, record):
                found.append(self._record(held[at : at + record], layout, kind))
            for at in range(count * record, len(held), pointers[level] or len(held)):
                if level and at < count * record + (count + 1) * pointers[level]:
                    end = at + self.width
                    its = _number(held[end : end + width])
                    left.append((_number(held[at:end]), its, level - 1))
        return found

    def _record(self, data: bytes, layout: _Layout, kind: int) -> Tuple[Tuple[int, ...], Chunk]:
        place = len(data) - 8 * layout.rank
        offsets = tuple(_number(data[at : at + 8]) for at in range(place, len(data), 8))
        size, mask = layout.size, 0
        if kind == 11:
            size, mask = _number(data[self.width : place - 4]), _number(data[place - 4 : place])
        return offsets, self._chunk(_number(data[: self.width]), size, mask)

    def _chunks(self, items: List[bytes], layout: _Layout) -> Iterator[Optional[Chunk]]:
        """The chunks that the items of an array tell; None for what has none."""
        width = self.width
        for data in items:
            address = _number(data[:width])
            if address >= self._source.size:
                yield None
            elif len(data) > width + 4:
                yield self._chunk(address, _number(data[width:-4]), _number(data[-4:]))
            else:
                yield self._chunk(address, layout.size, 0)

    def _chunk(self, address: int, size: int, mask: int) -> Chunk:
        return Chunk(self._start + address, min(size, self._source.size), mask)

    def _addresses(self, data: bytes) -> List[int]:
        width = self.width
        return [_number(data[at : at + width]) for at in range(0, len(data), width)]


def _number(data: bytes) -> int:
    return int.from_bytes(data, "little")


def _bytes_for(number: int) -> int:
    """How many bytes a number takes that is at most this."""
    return (max(number, 1).bit_length() - 1) // 8 + 1

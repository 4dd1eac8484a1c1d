"""Chunks of HDF5 that filters have packed, or which lie out of order: in these a pickle isn't seen
as it stands.

Streams of deflate are looked for anywhere, and what they unpack to is looked through in the order
of the file. Chunks that an index has in another order are looked through in that. That a file has
other filters shows in the messages that name them, wherever one is.
"""

from __future__ import annotations

import io
import re
import struct
import zlib
from typing import Dict, Iterator, List, NamedTuple, Optional, Set, Tuple

from .budget import Budget, TooMuch
from .hdf5_elsewhere import elsewhere_in
from .hdf5_indexes import Chunk, Dataset, datasets_in
from .hdf5_rows import rows_across
from .marks import HDF5
from .readings import Found, Place
from .source import BLOCK, Source, in_memory
from .stores import STORES, searched

KIND = "HDF5, packed"
_DEFLATE, _SHUFFLE, _FLETCHER = 1, 2, 3
_NAMES: Dict[int, str] = {
    4: "szip", 5: "nbit", 6: "scaleoffset", 305: "LZO", 307: "bzip2", 32000: "LZF", 32001: "Blosc",
    32004: "LZ4", 32008: "bitshuffle", 32013: "ZFP", 32015: "Zstandard", 32026: "Blosc2",
}
"""Filters that aren't read here, by their number."""
_SHARED = b"SMTB"
"""How a table of messages begins that headers share, in which they have no header of their own."""
_MESSAGE = re.compile(
    rb"\x0b(?=\0.{6}[\1\2][\1-\x20]|.{3}\x02[\1-\x20]|.{5}\x02[\1-\x20])", re.DOTALL
)
"""A message on filters: its type, size and flags, then its version and the number of filters."""
_FRONTS = (8, 4, 6)
"""The bytes in front of the message's version, in the forms that headers have."""
_LONGEST = 1 << 12
"""More bytes than the messages of filters have."""
_KNOWN, _REGISTERED = range(1, 7), (range(256, 512), range(32000, 32768))
"""The filters of HDF5 itself, and the numbers that others have."""
_NAMED_FROM = 256
"""From this number on a filter has a name."""
_MOST_SIZES = 8
"""So many sizes of shuffled items are told apart."""
_FIRST, _STEP, _UNPACKED_AT = 64, 1 << 14, 1 << 8
"""How many bytes are tried of what may be a stream, how many are unpacked at once, and how many are
in a step.
"""
_TOGETHER, _OVERLAP, _LARGEST = 1 << 20, 1 << 16, 1 << 26
"""Chunks are looked through together up to so many bytes, so many of them again with the next; and
the most bytes of a chunk.
"""


class Filters(NamedTuple):
    """The filters of a file."""

    has_deflate: bool
    sizes: Tuple[int, ...]
    """Those of items whose bytes are shuffled."""
    unread: Tuple[str, ...]
    """What isn't read here."""
    all: Tuple["_Filters", ...]
    """Those of each dataset."""


_Filters = Tuple[Tuple[int, int], ...]
"""Filters, each by its number and its first parameter."""


def hdf5_reading(place: Place) -> Found:
    """What a store has as it stands, and in chunks that deflate has packed; and a finding on other
    filters.
    """
    if not (yield from STORES["HDF5"](place)):
        return False
    filters = filters_of(place.source, place.budget)
    if filters.unread:
        what = ", ".join(filters.unread)
        why = f"its chunks may be packed by {what}, which a scan can't unpack"
        yield place.unread("HDF5", "unread-pickles", why)
    if filters.has_deflate:
        yield from _deflated(place, filters.sizes)
    yield from _in_order(place, filters.all[:_MOST_SIZES])
    start = start_of(place.source)
    width = place.source.read(start + 13 - 4 * (place.source.read(start + 8, 1) > b"\1"), 1)
    for why in dict.fromkeys(elsewhere_in(place.source, start, width[0], place.budget)):
        yield place.unread("HDF5", "unread-pickles", why)
    return True


def start_of(source: Source) -> int:
    """Where the first block of the file is."""
    places = (0, *(512 << it for it in range(48)))
    return next((at for at in places if source.read(at, len(HDF5)) == HDF5), 0)


def filters_of(source: Source, budget: Budget) -> Filters:
    """The filters that messages name."""
    found: Set[_Filters] = set()
    unread: Dict[str, None] = {}
    for block in _blocks(source, _LONGEST):
        budget.spend(1 + min(len(block), BLOCK) // 64)
        if _SHARED in block:
            unread["filters of shared messages"] = None
        for it in _MESSAGE.finditer(block):
            budget.spend()
            found.update(filter(None, (_message(block, it.start(), front) for front in _FRONTS)))
    sizes = {size for one in found for number, size in one if number == _SHUFFLE and size > 1}
    for one in found:
        for name in _unread_of([number for number, _ in one], sizes):
            unread[name] = None
    has_deflate = any(number == _DEFLATE for one in found for number, _ in one)
    if len(sizes) > _MOST_SIZES:
        unread["shuffles of very many kinds"] = None
    if len(found) > _MOST_SIZES:
        unread["filters of very many kinds"] = None
    its = tuple(sorted(sizes))[:_MOST_SIZES]
    return Filters(has_deflate, its, tuple(sorted(unread)), tuple(sorted(found)))


def _unread_of(numbers: List[int], sizes: Set[int]) -> Iterator[str]:
    """What of a chunk's filters isn't read here."""
    for number in numbers:
        if number not in (_DEFLATE, _SHUFFLE, _FLETCHER):
            yield _NAMES.get(number, f"filter {number}")
    own = [number for number in numbers if number != _FLETCHER]
    if _SHUFFLE in own and sizes and own != [_SHUFFLE, _DEFLATE] or own.count(_DEFLATE) > 1:
        yield "filters in another order"
    elif not own:
        yield "Fletcher-32 alone"


def _blocks(source: Source, more: int) -> Iterator[bytes]:
    """The source block by block, each with some bytes of the next one."""
    for at in range(0, source.size, BLOCK):
        yield source.read(at, BLOCK + more)


def _message(block: bytes, at: int, front: int) -> Optional[_Filters]:
    """The filters of a message; None if it is none."""
    place = at + 2 if front == 8 else at + 1
    size = int.from_bytes(block[place : place + 2], "little")
    begin = at + front
    body = block[begin : begin + min(size, _LONGEST)]
    if size > _LONGEST or len(body) < 4:
        return None
    is_old, found, place = body[0] == 1, [], 8 if body[0] == 1 else 2
    for _ in range(body[1]):
        one = _one(body, place, is_old)
        if one is None:
            return None
        number, parameter, place = one
        found.append((number, parameter))
    return tuple(found)


def _one(body: bytes, at: int, is_old: bool) -> Optional[Tuple[int, int, int]]:
    """A filter, its first parameter, and where the next one is."""
    number = int.from_bytes(body[at : at + 2], "little")
    has_name = is_old or number >= _NAMED_FROM
    parts = struct.unpack_from("<3H" if has_name else "<2H", body.ljust(at + 8, b"\0"), at + 2)
    length, count = parts[0] if has_name else 0, parts[-1]
    words = at + (8 if has_name else 6) + (-(-length // 8) * 8 if is_old else length)
    end = words + 4 * (count + (count % 2 if is_old else 0))
    is_filter = number in _KNOWN or any(number in some for some in _REGISTERED)
    if not is_filter or words + 4 * count > len(body):
        return None
    first = int.from_bytes(body[words : words + 4], "little") if count else 0
    return number, first, end


def _deflated(place: Place, sizes: Tuple[int, ...]) -> Found:
    """The pickles in all that deflate has packed, with its items as they are or shuffled."""
    all_held = [_Held(size) for size in (1, *sizes)]
    for chunk in _streams(place.source, place.budget):
        for held in all_held:
            place.budget.spend(1 + len(chunk) // _UNPACKED_AT)
            held.data += unshuffled(chunk, held.size)
            if len(held.data) >= _TOGETHER:
                yield from held.looked_through(place)
    for held in all_held:
        yield from held.looked_through(place)
    return True


class _Held:
    """Chunks that are looked through together, with items of a size."""

    def __init__(self, size: int, name: str = "chunks") -> None:
        self.size, self.data, self._name, self._number = size, bytearray(), name, 0

    def looked_through(self, place: Place) -> Found:
        """The pickles in them, of which the last bytes are kept."""
        self._number += 1
        name = f"{self._name} {self._number}" + (f" of {self.size} bytes" if self.size > 1 else "")
        inner = place.inside(name, in_memory(io.BytesIO(self.data)), KIND)
        if self.data:  # (the end may cut a pickle)
            yield from searched(inner, KIND, end_of=lambda _: inner.source.size)
        self.data = self.data[-_OVERLAP:]
        return True


def _in_order(place: Place, filters: Tuple[_Filters, ...]) -> Found:
    """The pickles in datasets whose chunks don't lie in their order, one behind another."""
    source, start = place.source, start_of(place.source)
    found = list(datasets_in(source, start, place.budget))
    order = sorted({chunk.at for dataset in found for chunk in dataset.chunks})
    place_of = {at: number for number, at in enumerate(order)}
    for number, dataset in enumerate(found):
        for its in (*filters, ()):
            yield from _in_rows(place, dataset, its, f"dataset {number}, rows")
        chunks = dataset.chunks
        pairs = tuple(zip(chunks, chunks[1:]))
        has_mask = any(chunk.mask for chunk in chunks)
        if has_mask or any(one.at + one.size != next_.at for one, next_ in pairs):
            yield from _joined(place, chunks, (), f"dataset {number}")
        if has_mask or any(place_of[one.at] + 1 != place_of[it.at] for one, it in pairs):
            for its in filters:
                yield from _joined(place, chunks, its, f"dataset {number}")
    return True


def _in_rows(place: Place, dataset: Dataset, filters: _Filters, name: str) -> Found:
    """The pickles in rows that lie across chunks. Of very long rows parts are looked through."""
    held = _Held(1, name)
    for chunks in dataset.beside:
        size = max(dataset.width, max(it.size for it in chunks))
        count = min(max(_LARGEST // size, 2), len(chunks))
        for at in range(0, max(len(chunks) - count // 2, 1), max(count // 2, 1)):
            parts = []
            for it in chunks[at : at + count]:
                place.budget.spend(4 + it.size // _UNPACKED_AT)
                data = place.source.read(it.at, it.size)
                parts.append(_plain(data, it.mask, filters, place))
            held.data += rows_across(parts, dataset.width)
            if len(held.data) >= _TOGETHER:
                yield from held.looked_through(place)
    yield from held.looked_through(place)
    return True


def _joined(place: Place, chunks: List[Chunk], filters: _Filters, name: str) -> Found:
    """The pickles in these chunks, one behind another, without the filters."""
    held = _Held(1, name)
    for chunk in chunks:
        place.budget.spend(4 + chunk.size // _UNPACKED_AT)
        held.data += _plain(place.source.read(chunk.at, chunk.size), chunk.mask, filters, place)
        if len(held.data) >= _TOGETHER:
            yield from held.looked_through(place)
    yield from held.looked_through(place)
    return True


def _plain(data: bytes, mask: int, filters: _Filters, place: Place) -> bytes:
    """What a chunk holds, without the filters but for those that it was written without."""
    for number in reversed(range(len(filters))):
        kind, parameter = filters[number]
        if mask >> number & 1:
            continue
        if kind == _DEFLATE:
            data = _whole(in_memory(io.BytesIO(data)), 0, place.budget) or data
        elif kind == _SHUFFLE:
            data = unshuffled(data, parameter)
        elif kind == _FLETCHER:
            data = data[:-4]
    return data


def unshuffled(data: bytes, size: int) -> bytes:
    """The bytes of items of this size, of which each first byte stood in front of each second."""
    count = len(data) // size
    if size < 2 or count < 2:
        return data
    made = bytearray(data)
    for place in range(size):
        made[place : count * size : size] = data[place * count : (place + 1) * count]
    return bytes(made)


def _begin() -> bytes:
    """A pattern of how a stream may begin."""
    parts = []
    for first in range(0x08, 0x80, 0x10):
        seconds = bytes(it for it in range(256) if (first << 8 | it) % 31 == 0 and not it & 0x20)
        parts.append(b"%b[%b]" % (re.escape(bytes([first])), re.escape(seconds)))
    return b"|".join(parts)


_BEGIN = re.compile(_begin(), re.DOTALL)


def _streams(source: Source, budget: Budget) -> Iterator[bytes]:
    """What the streams unpack to that end, but for what is a single byte again and again."""
    for at in range(0, source.size, BLOCK):
        block = source.read(at, BLOCK + _FIRST)
        for it in _BEGIN.finditer(block, 0, min(len(block), BLOCK + 1)):
            budget.spend(2)
            made = zlib.decompressobj()
            try:
                data = made.decompress(block[it.start() : it.start() + _FIRST])
            except zlib.error:
                continue
            whole = data if made.eof else _whole(source, at + it.start(), budget)
            if whole.strip(whole[:1]):
                yield whole


def _whole(source: Source, at: int, budget: Budget) -> bytes:
    """What the stream unpacks to that begins at a place; nothing if it doesn't end."""
    made, parts, size = zlib.decompressobj(), [], 0
    while not made.eof:
        packed = made.unconsumed_tail or source.read(at, _STEP)
        at += 0 if made.unconsumed_tail else len(packed)
        try:
            data = made.decompress(packed, _STEP << 4)
        except zlib.error:
            return b""
        budget.spend(1 + (len(packed) + len(data)) // _UNPACKED_AT)
        size += len(data)
        if size > _LARGEST:
            raise TooMuch(f"a chunk of it unpacks to more than {_LARGEST:,} bytes")
        if not (packed or data):
            return b""
        parts.append(data)
    return b"".join(parts)

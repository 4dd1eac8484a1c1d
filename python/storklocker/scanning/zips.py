"""Zip files: by their directory as `zipfile` and as miniz find it, and by their local headers."""

from __future__ import annotations

import itertools
import re
import zlib
from collections import Counter
from functools import partial
from typing import (
    Any, Callable, Dict, Iterator, List, NamedTuple, Optional, Sequence, Set, Tuple
)

from .batches import parts_of
from .budget import LOOKED_AT, PROBED, STEP
from .checkpoints import checkpoint_reading
from .foreign import foreign_members
from .packed import NO_MODULE
from .unpacking import MEMORY, bzip2, unpack
from .readings import Found, Place
from .places import places_of
from .source import BLOCK, Source, in_memory
from .rows import CLAIM
from .values import Values
from .zip_layout import (
    END, FRONT, LOCAL, Directory, Entry, content_of, directories, entries, fault_of, local_at
)

_HIDDEN = 0x61
"""The flags of members that are encrypted or patched."""
_PACKED = "it is packed in a way"
_STORAGE = re.compile(r"((?:.*/)?(?:data|constants))/[0-9]+", re.DOTALL)
"""What torch calls the numbers of a tensor, beside a pickle `data.pkl` or `constants.pkl`."""
_STORED, _DEFLATED, _BZIP2, _LZMA = 0, 8, 12, 14
_BEGIN: Dict[int, Callable[[], Any]] = {
    _DEFLATED: lambda: zlib.decompressobj(-15),
    _BZIP2: bzip2,
}


class _Read(NamedTuple):
    """A directory that some reader uses, and its members."""

    directory: Directory
    start: int
    """Where this reader finds the directory."""
    members: List[Entry]

    @property
    def shift(self) -> int:
        """What this reader adds to the offsets of members."""
        return self.start - self.directory.start


def zip_reading(place: Place) -> Found:
    """What any reader of zip files gets to. The one that is laid out strictly is read once."""
    source = place.source
    is_parted = yield from checkpoint_reading(place)
    is_named = source.front()[:4] in (LOCAL, END)
    fault, is_read = "", False
    seen: Set[Tuple[int, ...]] = set()
    for read in _reads(place):
        if _place_of(source, read) in place.budget.zips:
            continue  # that of a member, which was read as a file of its own
        if not (read.members or is_named):
            continue
        fault, is_read = fault_of(source, read.directory, read.members), True
        for it in foreign_members(entry.text for entry in read.members):
            yield place.foreign(it)
        yield from _members(place, read.members, read.shift, seen, not fault)
        if not fault:
            place.budget.zips.add(_place_of(source, read))
            return True
    if is_named and not is_read:
        fault = "it has no directory"
    if fault and not is_parted:
        kind = "differing-readings" if is_read else "broken-container"
        yield place.unread("zip", kind, f"{fault}: readers differ")
        yield from _members(place, _streamed(source), 0, seen, False)
    return bool(fault) or is_parted


def _place_of(source: Source, read: _Read) -> Tuple[int, int, int]:
    """The place of a directory, and the one from which its offsets are counted."""
    return (*source.place(read.start), source.place(read.shift)[1])


def _reads(place: Place) -> Iterator[_Read]:
    """The directories, each by its offset and by its size."""
    source = place.source
    for found in directories(source):
        for start in dict.fromkeys((found.start, found.meets - found.size)):
            if start >= 0:
                read = _Read(found, start, list(entries(source, start, found)))
                place.budget.spend(STEP + 2 * len(read.members))
                yield read


def _streamed(source: Source) -> List[Entry]:
    """The members by their local headers, up to the first that doesn't say how long it is."""
    members: List[Entry] = []
    at = 0
    while True:
        local = local_at(source, at)
        if local is None:
            return members
        members.append(local.entry)
        at = local.data + local.entry.packed


def _members(
    place: Place, members: List[Entry], shift: int, seen: Set[Tuple[int, ...]], is_strict: bool
) -> Found:
    """The members that weren't seen yet, by where they are and what their headers say."""
    texts = [entry.text for entry in members]
    yield from _twice(place, texts)
    moved = [entry._replace(at=entry.at + shift) for entry in members] if shift else members
    named, values = dict(zip(texts, moved)), Values(place, "zip")
    taken_of = partial(_taken_of, place, values)
    for entry in values.batches.left_of(moved, taken_of) if is_strict else moved:
        key = (entry.at, entry.flags, entry.method, entry.packed)
        if key in seen:
            continue
        seen.add(key)
        place.budget.spend_member()
        if not entry.name.endswith(b"/") or entry.size or entry.packed:
            yield from _member(place, entry, named, values)
    yield from values.told()
    return True


def _taken_of(place: Place, values: Values, those: Sequence[Entry]) -> int:
    """How many of the first of these, of a file that is laid out strictly, are plain values, which
    are told later.
    """
    if not (values.is_begun and place.budget.has_members(len(those))):
        return 0
    names, held, unpacked = [], [], []  # type: List[str], List[bytes], List[int]
    begins = [it.at for it in those]
    ends = [min(it.at + FRONT + len(it.name) + it.packed, place.source.size) for it in those]
    data, begins, ends = parts_of(place.source, begins, ends)
    for entry, at, end in zip(those, begins, ends):
        name, content = entry.text, _plain_content(entry, data[at:end])
        if not CLAIM.match(content) or _STORAGE.fullmatch(name):
            break
        names.append(name)
        held.append(content)
        unpacked.append(len(content) if entry.method == _DEFLATED else 0)
    place.budget.spend(sum(unpacked) // LOOKED_AT)
    behind = [*itertools.accumulate(map(len, held), initial=0)]
    count = values.taken_of(names, b"".join(held), behind[:-1], behind[1:]) if held else 0
    place.budget.spend_members(count)
    place.budget.spend_bytes(sum(unpacked[:count]))
    return count


def _plain_content(entry: Entry, data: bytes) -> bytes:
    """What a small member holds, whose local header begins these bytes; nothing if more is to be
    told of it.
    """
    found = content_of(data, entry.packed)
    if entry.flags & _HIDDEN or entry.size > BLOCK or len(found) != entry.packed:
        return b""
    if entry.method == _DEFLATED:
        made = zlib.decompressobj(-15)
        try:
            found = made.decompress(found, BLOCK + 1)
        except zlib.error:
            return b""
        if made.unused_data or not made.eof:
            return b""
    elif entry.method != _STORED:
        return b""
    return found if len(found) == entry.size and zlib.crc32(found) == entry.crc else b""


def _twice(place: Place, texts: List[str]) -> Found:
    """Names that two members have. Readers differ in which they use."""
    names = [text.partition("\0")[0] for text in texts]
    if len(set(names)) < len(names):
        twice = [name for name, count in Counter(names).items() if count > 1]
        more = f" and {len(twice) - 1} more" if len(twice) > 1 else ""
        why = f"several members are called {twice[0][:80]!r}{more}: readers differ"
        yield place.unread("zip", "differing-readings", why)
    pickles = sum(name.rpartition("/")[2].lower() == "data.pkl" for name in names)
    if pickles > 1:
        why = f"{pickles} members are called data.pkl: readers differ"
        yield place.unread("zip", "differing-readings", why)
    return True


def _member(place: Place, entry: Entry, named: Dict[str, Entry], values: Values) -> Found:
    """A member, beside which another may have the places of values."""
    data, fault = _read(place, entry)
    inner = place.inside(entry.text, data or place.source, "zip member", bool(fault))
    if data is not None:
        storage = _STORAGE.fullmatch(entry.text)
        inner = inner._replace(is_raw=storage is not None and f"{storage.group(1)}.pkl" in named)
        other = named.get(places_of(entry.text))
        if other is not None:
            inner = inner._replace(beside=partial(_data, place, other))
        yield from values.member(inner)
    if fault:
        kind = "unknown-container" if fault.startswith(_PACKED) else "broken-container"
        yield inner.unread("zip", kind, fault)
    return True


def _read(place: Place, entry: Entry) -> Tuple[Optional[Source], str]:
    """What a member holds, as far as it can be read, and what is wrong with it."""
    local = local_at(place.source, entry.at)
    if entry.flags & _HIDDEN:
        return None, "it is encrypted"
    if local is None:
        return None, "it has no local header"
    if entry.method not in (_STORED, _LZMA, *_BEGIN):
        return None, f"{_PACKED} ({entry.method}) that is not unpacked here"
    packed = place.source.part(local.data, entry.packed)
    data, fault = _content(packed, entry, place)
    return data, fault if packed.size == entry.packed else "it is truncated"


def _data(place: Place, entry: Entry) -> Optional[Source]:
    return _read(place, entry)[0]


def _content(packed: Source, entry: Entry, place: Place) -> Tuple[Source, str]:
    """What a member unpacks to, as far as it can be unpacked, and what is wrong with it."""
    data, fault = packed, ""
    if entry.method != _STORED:
        data, fault = _unpacked(packed, entry.method, place)
    if entry.method == _LZMA and data.size == entry.size:
        fault = ""  # its end needs no mark
    if not fault and data.size != entry.size:
        fault = f"it has {data.size:,} bytes, not {entry.size:,} as its header says"
    if not fault and data.size <= PROBED and _checksum(data, place) != entry.crc:
        fault = "Bad CRC-32"
    return data, fault


def _unpacked(packed: Source, method: int, place: Place) -> Tuple[Source, str]:
    start, begin = 0, _BEGIN.get(method)
    if begin is None:
        start, begin = _lzma_of(packed)
    if begin is None:
        return packed.part(0, 0), "the properties of LZMA can't be read"
    try:
        found = unpack(packed, start, begin, place.budget.spend_bytes)
    except ImportError as error:
        return packed.part(0, 0), f"{NO_MODULE}: {error}"
    fault = found.fault
    if not fault and found.end != packed.size:
        fault = "bytes follow the packed contents"
    return in_memory(found.data), fault


def _lzma_of(packed: Source) -> Tuple[int, Optional[Callable[[], Any]]]:
    """Where an LZMA stream of a zip file begins, behind its properties, and its filter."""
    front = packed.read(0, 9)
    length = int.from_bytes(front[2:4], "little")
    properties, size = front[4] if len(front) == 9 else 225, int.from_bytes(front[5:9], "little")
    if length != 5 or properties >= 225 or size > MEMORY:
        return 0, None
    numbers = {"lc": properties % 9, "lp": properties // 9 % 5, "pb": properties // 45}

    def begin() -> Any:
        import lzma

        filters = [{"id": lzma.FILTER_LZMA1, "dict_size": max(size, 4096), **numbers}]
        return lzma.LZMADecompressor(lzma.FORMAT_RAW, filters=filters)

    return 9, begin


def _checksum(data: Source, place: Place) -> int:
    found, at = 0, 0
    while at < data.size:
        block = data.read(at, 16 * BLOCK)
        if not block:
            break
        found, at = zlib.crc32(block, found), at + len(block)
        place.budget.spend(1 + len(block) // (16 * LOOKED_AT))
    return found

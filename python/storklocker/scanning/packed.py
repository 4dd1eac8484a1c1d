"""Streams that are packed: gzip, bzip2, xz, LZMA alone, zlib, and joblib's `ZF`.

Readers go on behind the end of a stream, if another one follows. They differ about other bytes
there, which are a finding.
"""

from __future__ import annotations

import io
import re
import struct
import zlib
from typing import Any, Callable, Iterator, NamedTuple, Optional, Tuple

from .budget import STEP
from .readings import Answer, Found, Nothing, Place, Reading, examine
from .source import BLOCK, Source, in_memory
from .unpacking import GZIP, ZLIB, bzip2, lzma_alone, unpack, xz

NO_MODULE = "this Python can't unpack it"
_MEANT = 1 << 12
"""So many bytes never come of what isn't packed, unless the first is zero."""


class _Format(NamedTuple):
    """A way of packing."""

    name: str
    is_at: Callable[[bytes], bool]
    """Whether the first bytes are those of a stream."""
    begin: Callable[[bytes], "_Begun"]
    """For the first bytes of a stream."""
    is_certain: bool = True
    """Whether a file that begins like this is one; otherwise a fault at its front says nothing."""
    goes_on_at: Optional[Callable[[bytes], bool]] = None
    """Whether these bytes behind a stream are those of another, if these may be others."""


class _Begun(NamedTuple):
    """What makes a decompressor, and how many of the first bytes that one has taken."""

    make: Callable[[], Any]
    taken: int = 0


def _reading(form: _Format, start: Callable[[bytes], int] = lambda front: 0) -> Reading:
    """What a reader of this format gets to, where its streams begin behind a header."""

    def reading(place: Place) -> Found:
        front = place.source.front()
        at = start(front)
        if at < 0 or not form.is_at(front[at : at + 32]):
            return False
        try:
            unpacked, fault, gap = _unpacked(place, at, form)
        except ImportError as error:
            if form.is_certain:
                yield place.unread(form.name, "unknown-container", f"{NO_MODULE}: {error}")
            return form.is_certain
        if unpacked.size == 0 and not form.is_certain and gap < 0:
            return False
        found = examine(place.inside("", unpacked, form.name, bool(fault)))
        if not form.is_certain and (fault or unpacked.read(0, 1) == b"\0"):
            found = _without_nothing(found)
        is_taken = yield from found
        if gap > 0:  # where some readers stop
            first = place.inside("", unpacked.part(0, gap), form.name)
            is_taken |= yield from _without_nothing(examine(first))
        if form.goes_on_at:
            joined = _joined_streams(place)
            if joined.getvalue() not in (b"", _whole(unpacked)):
                other = place.inside("", in_memory(joined), form.name, True)
                is_taken |= yield from _without_nothing(examine(other))
        is_meant = _is_meant(unpacked) or gap >= 0 and _is_usual(front)
        is_taken |= form.is_certain or bool(fault) and is_meant
        if fault and is_taken:
            yield place.unread(form.name, "broken-container", fault)
        return is_taken

    return reading


def _without_nothing(found: Found) -> Found:
    """What is found, but for bytes without a pickle, which may come of anything."""
    answer: Answer = None
    while True:
        try:
            it = found.send(answer)
        except StopIteration as end:
            return bool(end.value)
        answer = None if isinstance(it, Nothing) else (yield it)


def _is_meant(unpacked: Source) -> bool:
    """Whether this comes of what is packed, although a fault follows. LZMA makes zeros of zeros."""
    return unpacked.size >= _MEANT and unpacked.read(0, 1) != b"\0"


def _is_usual(front: bytes) -> bool:
    """Whether a stream begins as packers of zlib or LZMA begin it: it is one if it also ends."""
    window = int.from_bytes(front[1:5], "little")
    is_window = window >= 1 << 12 and window & (window - 1) == 0
    return _is_zlib(front) or front[5:13] == b"\xff" * 8 or is_window


def _unpacked(place: Place, at: int, form: _Format) -> Tuple[Source, str, int]:
    """All streams of a file, one behind another; what is wrong with them; and where some readers
    stop, or -1 if they stop at the end.
    """
    source, out, fault, gap = place.source, io.BytesIO(), "", -1
    is_at = form.goes_on_at or form.is_at
    while True:
        make, taken = form.begin(source.read(at, 32))
        found = unpack(source, at + taken, make, place.budget.spend_bytes)
        out.write(found.data.getbuffer())
        if found.fault:
            return in_memory(out), f"{form.name}: {found.fault}", gap
        at = behind_zeros(source, found.end)
        if at >= source.size:
            return in_memory(out), fault, gap
        if form.goes_on_at and found.end < at <= found.end + BLOCK:
            begins = _is_lzma(source.read(found.end, 32)) and not is_at(source.read(at, 32))
            at = found.end if begins else at  # (LZMA alone may begin with zeros)
        if not is_at(source.read(at, 32)):
            return in_memory(out), f"{source.size - at:,} bytes follow the packed contents", gap
        if at > found.end:
            fault = "zeros separate its packed parts: readers differ"
        is_same = form.is_at(source.read(at, 32))
        if form.is_certain and not is_same:
            fault = "other packed data follows it: readers differ"
        if at > found.end or not (form.is_certain and is_same):
            gap = out.tell() if gap <= 0 else gap


def _joined_streams(place: Place) -> io.BytesIO:
    """What `lzma` unpacks: each stream begins where the last one ends, also one of zeros."""
    source, out, at = place.source, io.BytesIO(), 0
    while source.size - at >= _LZMA_HEADER:
        make, taken = _lzma(source.read(at, 32))
        found = unpack(source, at + taken, make, place.budget.spend_bytes)
        place.budget.spend(3 * STEP)
        out.write(found.data.getbuffer())
        if found.fault:
            break
        at = found.end
        zeros = behind_zeros(source, at) - at
        at += max(0, zeros // _EMPTY - 1) * _EMPTY  # each is a stream of nothing
    return out


def _whole(source: Source) -> bytes:
    return source.read(0, source.size)


def behind_zeros(source: Source, at: int) -> int:
    """The first place from there on that isn't zero."""
    while at < source.size:
        block = source.read(at, BLOCK)
        left = block.lstrip(b"\0")
        at += len(block) - len(left)
        if left or not block:
            break
    return at


def _is_zlib(front: bytes) -> bool:
    return (
        len(front) > 2
        and front[0] & 15 == 8
        and front[0] >> 4 <= 7
        and int.from_bytes(front[:2], "big") % 31 == 0
    )


def _is_xz(front: bytes) -> bool:
    return front[:6] == b"\xfd7zXZ\0"


def _is_lzma(front: bytes) -> bool:
    """Whether it may be LZMA alone: its properties, and the size that it announces. Who asks for
    this format by name takes any size; then the zero behind it tells texts apart.
    """
    if len(front) < _LZMA_HEADER or front[0] >= 225:
        return False
    return front[5:13] == b"\xff" * 8 or 0 in (front[12], front[13])


def _lzma(front: bytes) -> _Begun:
    """For xz, or for LZMA alone: either may follow either."""
    return _Begun(xz) if _is_xz(front) else _Begun(lambda: lzma_alone(front), _LZMA_HEADER)


def _zlib(kind: int) -> Callable[[bytes], _Begun]:
    return lambda front: _Begun(lambda: zlib.decompressobj(kind))


_LZMA_HEADER, _EMPTY = 14, 18
"""The bytes that a stream has at least, and those of one that unpacks to nothing."""
_BZIP2 = re.compile(rb"BZh[1-9](1AY&SY|\x17rE8P\x90)")
_ZF = re.compile(rb"ZF.{19} ?", re.DOTALL)

_GZIP = _Format("gzip", lambda front: front[:3] == b"\x1f\x8b\x08", _zlib(GZIP))
_BZIP = _Format("bzip2", lambda front: _BZIP2.match(front) is not None, lambda _: _Begun(bzip2))
gzip_reading, bzip2_reading = _reading(_GZIP), _reading(_BZIP)
_XZ = _Format("xz", _is_xz, _lzma, True, lambda front: _is_xz(front) or _is_lzma(front))
xz_reading = _reading(_XZ)
_ALONE = _XZ._replace(name="lzma", is_at=_is_lzma, is_certain=False)
lzma_reading = _reading(_ALONE)
_ZLIB_FORMAT = _Format("zlib", _is_zlib, _zlib(ZLIB), False)
zlib_reading = _reading(_ZLIB_FORMAT)
_STREAMS = (_GZIP, _BZIP, _XZ, _ZLIB_FORMAT, _ALONE)


def streams_at(front: bytes) -> Iterator[Tuple[str, Callable[[], Any], int]]:
    """The formats of streams that begin with these bytes; for each what makes a decompressor, and
    how many of the bytes that has taken.
    """
    for form in _STREAMS:
        if form.is_at(front):
            make, taken = form.begin(front)
            yield form.name, make, taken


def lacking_at(front: bytes) -> str:
    """The format of a stream that begins with these bytes, if this Python can't unpack it."""
    for form in _STREAMS:
        if form.is_certain and form.is_at(front):
            try:
                form.begin(front).make()
            except ImportError:
                return form.name
    return ""


def _behind_header(front: bytes) -> int:
    found: Optional["re.Match[bytes]"] = _ZF.match(front)
    return -1 if found is None else found.end()


zf_reading = _reading(_ZLIB_FORMAT._replace(name="ZF"), _behind_header)
"""What joblib before 0.10 wrote, and joblib still reads."""

_UNKNOWN = tuple(
    (name, re.compile(magic, re.DOTALL))
    for name, magic in (
        ("7z", rb"7z\xbc\xaf\x27\x1c"),
        ("rar", rb"Rar!\x1a\x07"),
        ("zstd", rb"[\x1e\x22-\x28]\xb5\x2f\xfd"),
        ("lz4", rb"(\x04\x22\x4d|\x02\x21\x4c)\x18"),
        ("zstd or lz4, after a skipped frame", rb"[\x50-\x5f]\x2a\x4d\x18"),
        ("lzip", rb"LZIP\x01"),
    )
)
_BLOSC = struct.Struct("<BBHLLL")
"""Its version, that of what packs, flags, and the sizes: unpacked, of a block, and packed."""
_NOT_HERE = "it is packed in a way that a scan can't unpack"
UNREAD = re.compile(b"|".join(magic.pattern for _, magic in _UNKNOWN), re.DOTALL)
"""How a file begins that is packed in such a way, but for Blosc's."""


def is_blosc(source: Source) -> bool:
    """Whether it may be packed by Blosc, as chunks of zarr are: by the sizes that it announces."""
    front = source.read(0, _BLOSC.size)
    if len(front) < _BLOSC.size:
        return False
    numbers: Tuple[int, ...] = _BLOSC.unpack(front)
    version, form, _, unpacked, block, packed = numbers
    is_size = _BLOSC.size <= packed <= min(source.size, unpacked + 2 * _BLOSC.size)
    return 1 <= version <= 5 and form == 1 and is_size and 0 < block <= unpacked


def unread_packing(source: Source) -> str:
    """What a file is packed by that the standard library doesn't unpack; an empty text if nothing.
    """
    front = source.front()
    if is_blosc(source):
        return "Blosc"
    names = (name for name, magic in _UNKNOWN if magic.match(front))
    return next(names, "") if UNREAD.match(front) else ""


def unknown_reading(place: Place) -> Found:
    """What is packed in a way that the standard library doesn't unpack."""
    name = unread_packing(place.source)
    if name:
        yield place.unread(name, "unknown-container", _NOT_HERE)
    return bool(name)

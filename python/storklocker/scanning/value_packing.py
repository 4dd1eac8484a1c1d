"""Values that are packed in a store: in letters, or by gzip, bzip2, xz, LZMA or zlib."""

from __future__ import annotations

import binascii
import io
import re
import zlib
from typing import Any, Callable, Iterable, Iterator, Optional, Sequence, Tuple

from .budget import LOOKED_AT, STEP, Budget
from .names import NOTHING, imports_within
from .packed import UNREAD, streams_at
from .unpacking import unpack
from .patterns import ANY, NUL, Front, fronts_of
from .reaching import READERS_STOP
from .recognized import is_text
from .rows import CLAIM
from .source import Source, in_memory
from .spelled import LENGTHS
from .value_letters import (
    ZLIB_FRONTS, is_whole, may_begin, may_hold, of_letters, of_others
)

_STREAM = re.compile(
    rb"\x1f\x8b\x08|BZh[1-9]|\xfd7zXZ\0|[\0-\xe0].{4}(?:\xff{8}|.{4}[\0-\x3f]\0{3})"
    + rb"|[\x01-\x05]\x01.{14}|"
    + b"|".join((UNREAD.pattern, *(re.escape(it) for it in ZLIB_FRONTS))),
    re.DOTALL,
)
"""How a value begins that is packed: by gzip, bzip2, xz, LZMA as it is alone, Blosc, what isn't
read here, or zlib.
"""
IMPORTS = re.compile(rb"[\n\x80\x82-\x84\x93]")
_IMPORTING = re.compile(IMPORTS.pattern + rb"|[A-Za-z0-9+/_-]{16}")
"""A byte that each pickle has which imports something, or letters that may spell it in a text."""
_BY_LINES = (b"c", b"i", b"")
"""Instructions of which readers take more than the checker."""
_Stream = Tuple[str, Callable[[], Any], int]
STREAM_FRONTS: Tuple[Front, ...] = (
    *(
        (first, b"".join(it[1:] for it in ZLIB_FRONTS if it[:1] == first))
        for first in sorted({it[:1] for it in ZLIB_FRONTS})
    ),
    fronts_of(b"\x1f\x8b\x08"),
    (*fronts_of(b"BZh"), b"123456789", *fronts_of(b"1AY&SY")),
    fronts_of(b"\xfd7zXZ\0"),
    (*fronts_of(b"]\0\0"), *(ANY,) * 6, bytes(range(0x40)), *(NUL,) * 3),
)
"""How streams begin that are looked for anywhere."""
_ORDER = {byte: number for number, front in enumerate(STREAM_FRONTS) for byte in front[0]}
ENDLESS_FRONTS: Tuple[Front, ...] = ((b"\xff",) * 8 + (NUL,),)
"""The size of LZMA alone that isn't known, behind which a zero stands."""
_BEFORE, _PROPERTIES = 5, 0xE0
"""How many bytes are in front of that; and the greatest first byte."""
_LZMA = 60
"""The steps of a try to unpack that: a decompressor is made."""
_RAW = re.compile(
    rb"[%b](?:[\x80-\xff].[\0-\x7f]|[\0-\x7f].[\x80-\xff])|[\x02\x03]|[\x6a\x6b][\0\x60]|[%b]"
    % tuple(re.escape(bytes(it for it in range(256) if it & 6 == kind << 1)) for kind in (0, 2)),
    re.DOTALL,
)
"""How deflate begins a pickle: with a block that isn't packed, whose length also stands there with
other bits; one that is empty or has codes that are fixed; or one with codes of its own.
"""
_GOING_ON, _LINES = (b"", b"\r", b"\n"), re.compile(rb"[A-Za-z0-9+/_\r\n-]+={0,2}")
"""What is behind letters that may go on: the end of a block, or that of a line."""
_TRIED, _LONGEST_RUN = 64, 1 << 20
"""So many bytes are tried of what may be a stream of zlib's; and the most letters of a value."""
_PLAIN, _DEFLATED = b"gA", (b"\x78\x9c", b"\x78\x01", b"\x78\x5e", b"\x78\xda")
"""How a pickle begins in Base64, and what zlib packs."""
_SHORT = 1 << 12
"""The most bytes of a short value."""
_HEADER = 32
"""More bytes than a stream has in front."""
_LEAST, _DEPTH = 8, 3
"""The fewest bytes of a packed value that imports something, and how often one may be packed."""


def may_import(data: bytes, at: int, end: int) -> bool:
    """Whether a value may import something, as it stands or packed."""
    return _IMPORTING.search(data, at, end) is not None or is_packed(data, at, end)


def is_packed(data: bytes, at: int, end: int) -> bool:
    """Whether a value may be packed as a whole."""
    if _STREAM.match(data, at, end):
        return True
    if may_begin(data, at, end) and any(map(_may_go_on, of_letters(data[at:end], False))):
        return True
    made = any(map(_may_go_on, of_others(data[at:end])))
    return made or _deflated(data[at:end]) is not None


def _may_go_on(data: bytes) -> bool:
    """Whether what a value is decoded to may be packed again, or a reader gets to an import."""
    if _STREAM.match(data) or is_whole(data):
        return True
    if not IMPORTS.search(data):
        return False
    verdict, names, *_ = imports_within(data, NOTHING)
    is_end = verdict.reason in READERS_STOP and data[verdict.at : verdict.at + 1] not in _BY_LINES
    return bool(names) or not is_end


def unpacked(source: Source, budget: Budget, depth: int = _DEPTH) -> Iterator[Source]:
    """What a value may be unpacked to, also again."""
    if source.size < _LEAST or not depth:
        return
    for made in _made(source, budget):
        front = made.front()
        if len(front) < made.size or may_import(front, 0, len(front)):
            if front[0] in LENGTHS:
                yield made
            yield from unpacked(made, budget, depth - 1)


def packed_in(
    source: Source, start: int, block: bytes, places: Sequence[int], budget: Budget
) -> Iterator[Tuple[int, Source]]:
    """What may be unpacked of streams at some places of a block of a store: where that is, and what
    it unpacks to.
    """
    for at in places:
        budget.spend(3)
        if _is_begun(block[at : at + _TRIED]):
            budget.spend()
            for first in streams_at(block[at : at + _HEADER]):
                budget.spend(_LZMA if first[0] == "lzma" else 1)
                part = source.part(start + at, source.size)
                yield from ((at, it) for it in _deeper(part, first, budget))


def spelled_in(
    source: Source,
    start: int,
    block: bytes,
    runs: Iterable[Tuple[int, bytes]],
    budget: Budget,
) -> Iterator[Tuple[int, Source]]:
    """The same of letters at some places of a block, as `runs_in` gives them."""
    for at, run in runs:
        budget.spend(STEP + len(run) // LOOKED_AT)
        if any(map(_may_go_on, of_letters(run, True))):
            more = block[at + len(run) : at + len(run) + 1] in _GOING_ON
            lines = _LINES.match(source.read(start + at, _LONGEST_RUN)) if more else None
            text = lines.group() if lines else run
            yield from ((at, it) for it in unpacked(in_memory(io.BytesIO(text)), budget))


def streams_begun(
    block: bytes, places: Sequence[int], endless: Sequence[int], end: int
) -> Iterator[int]:
    """Where streams may begin in front of an end, in the order of their formats, if they do at one
    of these places, or have a size that isn't known. Of LZMA alone that is told by the size.
    """
    yield from sorted((at for at in places if at < end), key=lambda at: _ORDER[block[at]])
    for size in endless:
        if 0 <= size - _BEFORE < end and _is_alone(block[size - _BEFORE : size]):
            yield size - _BEFORE


def _is_alone(front: bytes) -> bool:
    """Whether LZMA alone begins so, by its properties and by the window, of which those who find
    out the format take none but a power of two, one and a half of that, and the greatest.
    """
    window = int.from_bytes(front[1:], "little")
    lowest = window & -window
    is_window = window > 0 and window in (lowest, 3 * lowest, 0xFFFFFFFF)
    return front[0] <= _PROPERTIES and is_window


def _is_begun(front: bytes) -> bool:
    """Whether a stream may begin so: of zlib's, the first bytes show it."""
    if not front.startswith(ZLIB_FRONTS):
        return True
    try:
        zlib.decompressobj().decompress(front)
    except zlib.error:
        return False
    return True


def _deeper(source: Source, first: _Stream, budget: Budget) -> Iterator[Source]:
    """What a stream at the front unpacks to, also again."""
    try:
        made = _unpacked(source, first, budget)
    except ImportError:
        return
    if made.size and made.front()[0] in LENGTHS:
        yield made
    yield from unpacked(made, budget, _DEPTH - 1)


def plainly_unpacked(data: bytes, budget: Budget) -> bytes:
    """What a short value unpacks to that is packed once, by Base64 or zlib as most programs do it;
    nothing if it isn't.
    """
    try:
        if data.startswith(_PLAIN):
            found = binascii.a2b_base64(data)
            return found if binascii.b2a_base64(found, newline=False) == data else b""
        if not data.startswith(_DEFLATED):
            return b""
        made = zlib.decompressobj()
        found = made.decompress(data, _SHORT)
    except (ValueError, zlib.error):
        return b""
    budget.spend(2)
    return found if made.eof and not made.unused_data else b""


def _made(source: Source, budget: Budget) -> Iterator[Source]:
    """What a value may be unpacked to once."""
    front = source.front()
    for first in streams_at(front[:_HEADER]) if _STREAM.match(front) else ():
        try:
            yield _unpacked(source, first, budget)
        except ImportError:  # (which is told, if it is certain that it is packed so)
            continue
    raw = _deflated(front)
    if raw is not None:
        yield _unpacked(source, raw, budget)
    is_spelled = is_text(front) or may_begin(front, 0, len(front))
    if not is_spelled and not may_hold(front, 0, len(front)):
        return
    data = front if len(front) == source.size else source.read(0, source.size)
    budget.spend(1 + len(data) // LOOKED_AT)
    for made in of_letters(data, is_text(front)):
        budget.spend_bytes(len(made))
        yield in_memory(io.BytesIO(made))


def _deflated(front: bytes) -> Optional[_Stream]:
    """What unpacks a value that deflate has packed without a header; None if no pickle of protocol
    2 or later is packed so.
    """
    if not _RAW.match(front):
        return None
    try:
        made = zlib.decompressobj(-zlib.MAX_WBITS).decompress(front[:_TRIED], 2)
    except zlib.error:
        return None
    return ("zlib", lambda: zlib.decompressobj(-zlib.MAX_WBITS), 0) if CLAIM.match(made) else None


def _unpacked(source: Source, first: _Stream, budget: Budget) -> Source:
    """What streams unpack to, one behind another but for zlib's."""
    out, at, stream = io.BytesIO(), 0, first  # type: io.BytesIO, int, Optional[_Stream]
    while stream is not None:
        name, make, taken = stream
        budget.spend()
        found = unpack(source, at + taken, make, budget.spend_bytes)
        out.write(found.data.getbuffer())
        at = found.end
        is_last = bool(found.fault) or name == "zlib"
        stream = None if is_last else next(streams_at(source.read(at, _HEADER)), None)
    return in_memory(out)

"""Unpacks streams: gzip, bzip2, xz, LZMA alone and zlib."""

from __future__ import annotations

import io
import sys
import zlib
from typing import Any, Callable, NamedTuple, Tuple, Type

from .source import Source

MEMORY = 1 << 28
"""The most memory for the window of an xz or LZMA stream."""
_FAULTS = {"lzma": "LZMAError", "compression.zstd": "ZstdError", "backports.zstd": "ZstdError"}
"""The errors of modules that unpack."""
_STEP = 1 << 12
"""What goes in and comes out at once. A step that meets a fault loses its bytes, and readers take
steps of 8 KiB: none may get further.
"""
GZIP, ZLIB = 31, 15
"""What zlib calls its formats."""


class Unpacked(NamedTuple):
    """What a stream unpacks to, where it ends, and what is wrong with it."""

    data: io.BytesIO
    end: int
    fault: str


def unpack(
    source: Source, at: int, begin: Callable[[], Any], spend: Callable[[int], object]
) -> Unpacked:
    """Unpacks a stream that begins at an offset, up to its end or to a fault. `spend` is called
    with the number of bytes of each piece.
    """
    out, packed = io.BytesIO(), b""
    try:
        made = begin()
    except _faults() as error:  # of properties that can't be
        return Unpacked(out, at, str(error) or type(error).__name__)
    is_zlib = hasattr(made, "unconsumed_tail")
    while not made.eof:
        if is_zlib:
            packed = made.unconsumed_tail
        if not packed and (is_zlib or made.needs_input):
            packed = source.read(at, _STEP)
            at += len(packed)
            if not packed:
                return Unpacked(out, at, "it is truncated")
        try:
            data = made.decompress(packed, _STEP)
        except _faults() as error:
            return Unpacked(out, at, str(error) or type(error).__name__)
        packed = b""
        out.write(data)
        spend(len(data))
    # (that of LZ4 is None where nothing follows)
    return Unpacked(out, at - len(made.unused_data or b""), "")


def _faults() -> Tuple[Type[Exception], ...]:
    """What decompressors raise; that of LZ4 a RuntimeError."""
    found = {name: sys.modules.get(name) for name in _FAULTS}
    more = (getattr(module, _FAULTS[name]) for name, module in found.items() if module)
    return (OSError, ValueError, EOFError, zlib.error, MemoryError, RuntimeError, *more)


def bzip2() -> Any:
    """A decompressor, of a module that some Pythons lack."""
    import bz2

    return bz2.BZ2Decompressor()


def xz() -> Any:
    import lzma

    return lzma.LZMADecompressor(lzma.FORMAT_XZ, MEMORY)


def lzma_alone(header: bytes = b"") -> Any:
    """A decompressor that has taken a header. Readers take a window of any size, which here is as
    large as may be; and liblzma before 5.4 takes any byte behind the header.
    """
    import lzma

    made = lzma.LZMADecompressor(lzma.FORMAT_ALONE, MEMORY)
    if header:
        window = min(int.from_bytes(header[1:5], "little"), MEMORY >> 1)
        made.decompress(header[:1] + window.to_bytes(4, "little") + header[5:13] + b"\0")
    return made

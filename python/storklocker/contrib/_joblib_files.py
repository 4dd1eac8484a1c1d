"""The bytes of a joblib file: given by name, open or read, and packed or not."""

from __future__ import annotations

import contextlib
import functools
import importlib
import io
import os
import zlib
from typing import Any, BinaryIO, Callable, Dict, Iterator, NamedTuple, Optional, Union

from .._guard import Guard
from ..scanning.unpacking import GZIP, ZLIB, bzip2, lzma_alone, unpack, xz
from ..scanning.source import Source, in_memory

File = Union[str, "os.PathLike[str]", bytes, BinaryIO]


class Opened(NamedTuple):
    """The bytes of a file, and what they are taken from."""

    source: Source
    path: Optional[str] = None
    """The name of the file, if arrays can be mapped from it."""
    finish: Optional[Callable[[int], object]] = None
    """Leaves an open file behind the bytes that were read of it. None if no more may follow."""


def _lz4() -> Any:
    from lz4 import frame

    return frame.LZ4FrameDecompressor()


def _zstd() -> Any:
    """For files of a compressor that was registered with joblib."""
    try:
        zstd: Any = importlib.import_module("compression.zstd")  # from Python 3.14 on
    except ImportError:
        zstd = importlib.import_module("backports.zstd")
    return zstd.ZstdDecompressor()


_BEGIN: Dict[bytes, Callable[[], Any]] = {
    b"x": lambda: zlib.decompressobj(ZLIB),
    b"\x1f\x8b": lambda: zlib.decompressobj(GZIP),
    b"BZ": bzip2,
    b"\xfd7zXZ": xz,
    b"]\0": lzma_alone,
    b"\x04\x22\x4d\x18": _lz4,
    b"\x28\xb5\x2f\xfd": _zstd,
}
"""The first bytes by which joblib knows what is packed, and what unpacks it."""
_STEP = 1 << 20


@contextlib.contextmanager
def opened(file: File, guard: Guard) -> Iterator[Opened]:
    """The unpacked bytes of a file. What is packed, or comes from a stream that can't seek, is held
    in memory, at most the guard's `max_bytes`.
    """
    if isinstance(file, bytes):
        yield _unpacked(Opened(in_memory(io.BytesIO(file))), guard)
    elif isinstance(file, (str, os.PathLike)):
        with open(file, "rb") as own:
            size = os.fstat(own.fileno()).st_size
            yield _unpacked(Opened(Source(own, 0, size), os.fspath(file)), guard)
    elif _can_seek(file):
        start, seek = file.tell(), file.seek
        source = Source(file, start, seek(0, os.SEEK_END) - start)
        try:
            yield _unpacked(Opened(source, finish=lambda end: seek(start + end)), guard)
        except BaseException:
            seek(start)
            raise
    else:
        yield _unpacked(Opened(_all_of(file, guard)), guard)


def _can_seek(file: Any) -> bool:
    """Whether it is a file or bytes in memory, which cost nothing to read twice."""
    raw = file.raw if isinstance(file, (io.BufferedReader, io.BufferedRandom)) else file
    return isinstance(raw, (io.BytesIO, io.FileIO)) and raw.seekable()


def _all_of(file: Any, guard: Guard) -> Source:
    held = io.BytesIO()
    while True:
        data = file.read(_STEP)
        if not data:
            return in_memory(held)
        if held.write(data) and held.tell() > guard.max_bytes:
            raise guard.UnpicklingError(_too_long(guard, "is"))


def _too_long(guard: Guard, verb: str) -> str:
    return f"the file {verb} more than the guard's max_bytes, {guard.max_bytes:,}"


def _unpacked(found: Opened, guard: Guard) -> Opened:
    source = found.source
    front = source.read(0, 8)
    if front.startswith(b"ZF"):
        raise guard.UnpicklingError(
            "joblib before 0.10 wrote this file, which names other files:"
            " load it with that, and dump it again"
        )
    for magic, begin in _BEGIN.items():
        if front.startswith(magic):
            break
    else:
        return found
    left = [guard.max_bytes]

    def spend(count: int) -> None:
        left[0] -= count
        if left[0] < 0:
            raise guard.UnpicklingError(_too_long(guard, "unpacks to"))

    try:
        unpacked = unpack(source, 0, begin, spend)
    except ImportError as error:
        raise guard.UnpicklingError(f"this Python can't unpack the file: {error}") from error
    if unpacked.fault:
        raise guard.UnpicklingError(f"the packed contents can't be read: {unpacked.fault}")
    if unpacked.end < source.size and found.finish is None:
        raise guard.UnpicklingError("bytes follow the packed contents")
    finish = found.finish
    if finish is not None:
        finish = functools.partial(_finish, finish, unpacked.end)
    return Opened(in_memory(unpacked.data), finish=finish)


def _finish(finish: Callable[[int], object], packed: int, _: int) -> None:
    """Leaves an open file behind what is packed."""
    finish(packed)

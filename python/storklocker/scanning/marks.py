"""How the files begin that each reader takes, or what they are called: who has to be asked.

This is apart from the readers, whose modules take long to import: most files are one small pickle,
about which no other reader has to be asked.
"""

from __future__ import annotations

import functools
import re
import struct
from typing import Dict, Pattern, Sequence, Tuple

from .._storklocker import holds
from .places import METADATA, PART, VALUES
from .spelled import LENGTHS

TIME = 4
"""The bytes of the time in front of a value of cachelib."""
BERKELEY_ORDERS = {
    struct.pack(f"{order}I", number): order
    for number in (0x53162, 0x61561, 0x42253)
    for order in "<>"
}
"""The order of bytes in numbers, by those behind the first twelve of a file of Berkeley DB."""
NPY, HDF5, LMDB = b"\x93NUMPY", b"\x89HDF\r\n\x1a\n", b"\xde\xc0\xef\xbe"
RECORDS = b"\0.{3}[%b]" % re.escape(bytes(LENGTHS))
"""A length of `SocketHandler`, and the instruction that a pickle begins with."""
_ZIP = b"PK"  # (as local headers and end records begin)

READERS = (
    "dbm.dumb",  # the first, because it says where the pickles are
    *("pickle", "cachelib", "distcp", "npy", "tar", "gzip", "bzip2", "xz", "lzma", "zlib", "ZF"),
    *("packed file", "SQLite", "Berkeley DB", "HDF5", "GDBM", "LMDB", "Arrow", "Parquet"),
    "other stores",  # of ZODB, Hadoop, logging, msgpack-numpy and Redis
    "zip",  # the last, because it leaves out what a member holds
)
"""What all readers read, in the order in which they are asked."""

FIRST: Dict[str, bytes] = {
    "gzip": b"\x1f",
    "bzip2": b"B",
    "xz": b"\xfd",
    "zlib": b"\x08\x18\x28\x38\x48\x58\x68\x78",
    "ZF": b"Z",
    "packed file": b"7RL\1\2\3\4\5\x1e" + bytes(range(0x22, 0x29)) + bytes(range(0x50, 0x60)),
    "SQLite": b"S7\xd9",
    "GDBM": b"\x13\xcd\xce\xcf\xd0\xd1",
    "Arrow": b"AF",
    "Parquet": b"P",
}
"""With which byte the files begin that a reader takes, if not with any."""

NAMED: Dict[str, str] = {"dbm.dumb": VALUES, "distcp": METADATA}
"""How the names of the files end that a reader takes, if not in any way."""

MARKED: Dict[str, bytes] = {
    # an instruction stands where the value begins
    "cachelib": b".{%d}[%b]" % (TIME, re.escape(bytes(LENGTHS))),
    # the first block may be zeros; or its checksum is what `tarfile` reads as a number, or more
    "tar": rb"\0|.{148}(?:[\x80\xff]|[%b]{8}|[%b]{0,7}\0)|.{257}ustar"
    % ((rb"\t-\r\x1c-\x20+\-_0-7oO",) * 2),
    "lzma": rb"[\0-\xe0](?:.{4}\xff{8}.|.{11}\0.|.{12}\0)",  # that of LZMA alone
    "Berkeley DB": b".{12}(?:%b)" % b"|".join(map(re.escape, BERKELEY_ORDERS)),
    "LMDB": b".{16}" + LMDB,
    "other stores": RECORDS + rb"|FS(?:21|20|30)|SEQ[\4-\6]"
    rb"|[\x81-\x8f\xde].{0,9}(?:\xa2|\xc4\x02)nd\xc3|REDIS|\*[1-9]",
}
"""A pattern of the first bytes of all files that a reader takes."""

HOLDING: Dict[str, bytes] = {"npy": NPY, "HDF5": HDF5, "zip": _ZIP}
"""What stands somewhere in all files that a reader takes."""

_HELD = tuple(HOLDING.values())
_ENDINGS = (VALUES, PART, METADATA)
_ENDING = re.compile("(?:%s)(?:\n|$)" % "|".join(map(re.escape, _ENDINGS)))


def is_named(path: str) -> bool:
    """Whether a file has a name for which all readers are to be asked."""
    return path.lower().endswith(_ENDINGS)


def is_unmarked(data: bytes) -> bool:
    """Whether a file that is these bytes has none of the marks of readers."""
    return not (holds(data, _HELD) or beginning(data[:1])[1].match(data))


def unmarked_of(data: bytes, begins: Sequence[int], ends: Sequence[int]) -> int:
    """How many of the first of these parts, files that begin with PROTO, have no mark of readers.
    """
    mark, has_any = beginning(b"\x80")[1].match, holds(data, _HELD)
    for number, (at, end) in enumerate(zip(begins, ends)):
        if mark(data, at, end) or has_any and holds(data[at:end], _HELD):
            return number
    return len(begins)


def plainly_named(names: Sequence[str], most: int) -> int:
    """How many of the first of these have so many characters at the most, but some, and no name for
    which all readers are to be asked.
    """
    lengths = [*map(len, names)]
    if names and 0 < min(lengths) and max(lengths) <= most:
        if _ENDING.search("\n".join(names).lower()) is None:
            return len(names)
    for number, name in enumerate(names):
        if is_named(name) or not 0 < len(name) <= most:
            return number
    return len(names)


def is_plain(path: str, data: bytes) -> bool:
    """Whether a file that is these bytes has no name and no mark for which more than one reader has
    to be asked.
    """
    return is_unmarked(data) and len(beginning(data[:1])[0]) < 2 and not is_named(path)


@functools.lru_cache(maxsize=None)
def beginning(first: bytes) -> Tuple[Tuple[str, ...], Pattern[bytes], Tuple[str, ...]]:
    """What readers of files with this first byte read: those that are always asked, the marks of
    the others, and all.
    """
    found = tuple(it for it in READERS if first in FIRST.get(it, first) and it not in NAMED)
    plain = tuple(it for it in found if it not in {**MARKED, **HOLDING})
    marks = b"|".join(mark for name, mark in MARKED.items() if name in found)
    return plain, re.compile(marks, re.DOTALL), found


@functools.lru_cache(maxsize=None)
def mark_of(name: str) -> Pattern[bytes]:
    """The mark of what a reader reads; an empty one if it has none."""
    return re.compile(MARKED.get(name, b""), re.DOTALL)

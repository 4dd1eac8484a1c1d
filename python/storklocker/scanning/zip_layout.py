"""The records of a zip file, and whether they are laid out so that all readers agree.

`zipfile` finds the directory by its size, in front of the end record; miniz, which torch uses, by
its offset; readers of streams look at the local headers alone. They agree if the directory meets
the end record, nothing follows that, and the members fill the file from its first byte on.
"""

from __future__ import annotations

import re
import struct
from typing import Any, Iterator, List, NamedTuple, Optional

from .source import BLOCK, Source

_END = struct.Struct("<4s4H2LH")
_LOCATOR = struct.Struct("<4sLQL")
_END64 = struct.Struct("<4sQ2H2L4Q")
_CENTRAL = struct.Struct("<4s2B5H3L5H2L")
_LOCAL = struct.Struct("<4s5H3L2H")
END, LOCAL, _CENTRAL_MARK = b"PK\x05\x06", b"PK\x03\x04", b"PK\x01\x02"
END_SIZE = _END.size
_TAIL = END_SIZE + (1 << 16)
_ENDS = 8
"""The most end records that are looked at."""
_COMMENT, _COMMIT = 64, re.compile(rb"(?:[0-9a-f]{40})?|[0-9a-f]{64}")
"""The comment of `git archive`, by SHA-1 or SHA-256, which no reader takes for a record; or none.
"""
_PREFIX = 1 << 24
"""The longest program in front of a zip file that is looked through for headers."""
_HEADER = re.compile(rb"PK(?:\x03\x04.{4}[\0-\x63]\0|\x05\x06\0{4})", re.DOTALL)
"""A header of a member, by its way of packing, or an end record: one that unpacks itself has their
first bytes among its instructions.
"""
FRONT = _LOCAL.size + 1024
"""More bytes than most local headers have without the name."""
_MOST_OF_ENTRY = _CENTRAL.size + 2 * ((1 << 16) - 1)
_WINDOW = 4 * _MOST_OF_ENTRY
"""The most bytes of an entry without its comment; and so many bytes are read at once."""
_NONE16, _NONE32 = (1 << 16) - 1, (1 << 32) - 1
_DESCRIBED = 8
"""The flag of a member whose sizes stand behind its data."""


class Entry(NamedTuple):
    """A member, as the directory or its local header has it."""

    name: bytes
    flags: int
    method: int
    crc: int
    packed: int
    size: int
    at: int
    """The offset of its local header."""
    is_odd: bool = False
    """Whether it has a second name, or is on another disk."""

    @property
    def text(self) -> str:
        """The name."""
        if self.name.isascii():
            return self.name.decode("ascii")  # (that is how both begin, and takes less time)
        return self.name.decode("utf-8" if self.flags & 0x800 else "cp437", "replace")


class Directory(NamedTuple):
    """An end record, and where its directory is."""

    at: int
    """The offset of the end record."""
    meets: int
    """The offset at which the directory has to end."""
    start: int
    size: int
    members: int
    fault: str
    """What is odd about the end record."""


def directories(source: Source) -> Iterator[Directory]:
    """What the end records say, the last one first."""
    base = max(0, source.size - _TAIL)
    tail = source.read(base, _TAIL)
    place = len(tail)
    for _ in range(_ENDS):
        place = tail.rfind(END, 0, place + 3 if place < len(tail) else place)
        if place < 0:
            return
        if len(tail) - place >= _END.size:
            yield from _directories_at(source, base + place)


def _directories_at(source: Source, at: int) -> Iterator[Directory]:
    _, disk, first, here, count, size, start, comment = _END.unpack(source.read(at, _END.size))
    behind = source.read(at + _END.size, _COMMENT + 1)
    is_right = len(behind) == comment and _COMMIT.fullmatch(behind) is not None
    fault = "" if is_right else "bytes follow its end record"
    if disk or first or here != count:
        fault = "it is a part of a split archive"
    plain = Directory(at, at, start, size, count, fault)
    large = _large(source, plain)
    if large is not None:
        yield large
    if large is None or large.fault:
        wants = _NONE32 in (size, start) or count == _NONE16
        yield plain._replace(fault="it lacks a locator") if wants and not fault else plain


def _large(source: Source, plain: Directory) -> Optional[Directory]:
    """What the end record for large files says, if a locator names one."""
    data = source.read(plain.at - _LOCATOR.size, _LOCATOR.size) if plain.at > _LOCATOR.size else b""
    if data[:4] != b"PK\x06\x07":
        return None
    _, _, at, disks = _LOCATOR.unpack(data)
    near = plain.at - _LOCATOR.size - _END64.size
    record = source.read(near, _END64.size) if near >= 0 else b""
    if len(record) < _END64.size or record[:4] != b"PK\x06\x06":
        return plain._replace(fault="its locator doesn't follow an end record for large files")
    _, length, _, _, disk, first, here, count, size, start = _END64.unpack(record)
    fault = plain.fault
    if at != near or length != _END64.size - 12 or disks > 1 or disk or first or here != count:
        fault = "its locator names another end record"
    for mine, other, none in (
        (plain.members, count, _NONE16), (plain.size, size, _NONE32), (plain.start, start, _NONE32)
    ):
        if mine not in (none, other):
            fault = "its end records differ"
    return Directory(plain.at, near, start, size, count, fault)


def entries(source: Source, start: int, found: Directory) -> Iterator[Entry]:
    """The members of a directory, from an offset on, until one can't be read."""
    at, end = start, start + found.size
    data, base = b"", 0
    while at + _CENTRAL.size <= end:
        if not 0 <= at - base <= len(data) - _MOST_OF_ENTRY:
            data, base = source.read(at, _WINDOW), at
        place = at - base + _CENTRAL.size
        if len(data) < place or data[at - base : at - base + 4] != _CENTRAL_MARK:
            return
        (_, _, _, _, flags, method, _, _, crc, packed, size, names, extras, comments, disk, _, _,
         offset) = _CENTRAL.unpack_from(data, at - base)
        name, extra = data[place : place + names], data[place + names : place + names + extras]
        is_odd = disk not in (0, _NONE16)
        entry = Entry(name, flags, method, crc, packed, size, offset, is_odd)
        yield _with_extra(entry, extra) if extra else entry
        at += _CENTRAL.size + names + extras + comments


def _with_extra(entry: Entry, extra: bytes) -> Entry:
    """The entry with the sizes of the extra field for large files."""
    while len(extra) >= 4:
        kind, length = struct.unpack("<2H", extra[:4])
        data, extra = extra[4 : 4 + length], extra[4 + length :]
        if kind == 0x7075:
            entry = entry._replace(is_odd=True)
        if kind != 1:
            continue
        for word in ("size", "packed", "at"):
            if getattr(entry, word) == _NONE32 and len(data) >= 8:
                entry = _with(entry, word, int.from_bytes(data[:8], "little"))
                data = data[8:]
    return entry


def _with(entry: Entry, word: str, number: int) -> Entry:
    """The entry with another number in a field."""
    changed: Any = {word: number}
    return entry._replace(**changed)


class Local(NamedTuple):
    """A local header, and where its data begin."""

    entry: Entry
    data: int


def content_of(data: bytes, size: int) -> bytes:
    """So many bytes behind the local header that begins these; fewer if they end."""
    if len(data) < _LOCAL.size:
        return b""
    *_, names, extras = _LOCAL.unpack_from(data)
    begin = _LOCAL.size + int(names) + int(extras)
    return data[begin : begin + size]


def local_at(source: Source, at: int) -> Optional[Local]:
    """The local header at an offset."""
    record = source.read(at, _LOCAL.size) if at >= 0 else b""
    if len(record) < _LOCAL.size or record[:4] != LOCAL:
        return None
    _, _, flags, method, _, _, crc, packed, size, names, extras = _LOCAL.unpack(record)
    name = source.read(at + _LOCAL.size, names)
    entry = Entry(name, flags, method, crc, packed, size, at)
    extra = source.read(at + _LOCAL.size + names, extras)
    return Local(_with_extra(entry, extra), at + _LOCAL.size + names + extras)


def fault_of(source: Source, found: Directory, listed: List[Entry]) -> str:
    """Why readers differ about a zip file; an empty text if they agree. A program may stand in
    front, from whose end on the offsets may count, if there is no header in it and no directory
    where the offset would be without it.
    """
    if found.fault:
        return found.fault
    shift = found.meets - found.size - found.start
    if shift and (shift < 0 or source.read(found.start, len(_CENTRAL_MARK)) == _CENTRAL_MARK):
        return "its directory doesn't meet its end record"
    if len(listed) != found.members:
        return f"its directory has {len(listed)} members, not {found.members}"
    members = [entry._replace(at=entry.at + shift) for entry in listed] if shift else listed
    ends = [entry.at for entry in members[1:]] + [found.start + shift]
    begin = members[0].at if members else ends[0]
    if begin and not _is_program(source, begin, bool(members)):
        return "its first bytes belong to no member"
    data, base = b"", 0
    for entry, end in zip(members, ends):
        if not 0 <= entry.at - base <= len(data) - _LOCAL.size - len(entry.name):
            data, base = source.read(entry.at, BLOCK), entry.at
        if _is_followed(data, entry.at - base, entry, end - base):
            continue
        fault = _member_fault(source, entry, end)
        if fault:
            return f"{entry.text[:80]!r}: {fault}"
    return ""


def _is_followed(data: bytes, at: int, entry: Entry, end: int) -> bool:
    """Whether a member with a plain header at a place of these bytes ends at another."""
    if entry.is_odd or entry.flags & _DESCRIBED or len(data) < at + _LOCAL.size:
        return False
    mark, _, flags, method, _, _, crc, packed, size, names, extras = _LOCAL.unpack_from(data, at)
    its, at = (flags, method, crc, packed, size), at + _LOCAL.size
    if mark != LOCAL or its != entry[1:6] or _NONE32 in its:
        return False
    name = data[at : at + names]
    return at + names + extras + packed == end and name == entry.name and b"\0" not in name


def _is_program(source: Source, size: int, has_members: bool) -> bool:
    """Whether a zip file may begin behind so many bytes, in which no reader sees another one."""
    front = source.read(0, min(size, _PREFIX + 1))
    is_other = front[:2] in (b"#!", b"MZ", b"\x7fE", b"\xfe\xed", b"\xcf\xfa", b"\xca\xfe")
    is_whole = len(front) == size <= _PREFIX
    return has_members and is_other and is_whole and _HEADER.search(front) is None


def _member_fault(source: Source, entry: Entry, end: int) -> str:
    local = local_at(source, entry.at)
    if local is None:
        return "it has no local header"
    mine, other = entry, local.entry
    if entry.is_odd or b"\0" in mine.name or mine.name != other.name:
        return "it has two names"
    if (mine.flags, mine.method) != (other.flags, other.method):
        return "its two headers differ"
    described = bool(mine.flags & _DESCRIBED)
    for word in ("crc", "packed", "size"):
        its = getattr(other, word)
        if its != getattr(mine, word) and not (described and its in (0, _NONE32)):
            return "its two headers differ"
    gap = source.read(local.data + mine.packed, end - local.data - mine.packed)
    if local.data + mine.packed > end or not _is_described(gap, mine, described):
        return "it isn't followed by the next one"
    return ""


def _is_described(gap: bytes, entry: Entry, described: bool) -> bool:
    """Whether the bytes behind a member are those that belong there."""
    if not described or not gap:
        return not gap
    data = gap[4:] if gap[:4] == b"PK\x07\x08" and len(gap) in (16, 24) else gap
    numbers = (entry.crc, entry.packed, entry.size)
    forms = ("<3L", "<L2Q")
    return any(
        len(data) == struct.calcsize(form) and struct.unpack(form, data) == numbers
        for form in forms
    )

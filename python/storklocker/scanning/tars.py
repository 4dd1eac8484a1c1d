"""Tar files, with and without the magic of POSIX."""

from __future__ import annotations

import io
import itertools
import re
import tarfile
from functools import partial
from typing import Any, Dict, Iterator, List, Optional, Sequence, Tuple, Union

from .batches import parts_of
from .packed import behind_zeros
from .readings import Found, Place
from .places import places_of
from .source import Source, in_memory
from .tar_headers import HEADER, Plain, plain_members
from .values import Values

_BLOCK = HEADER
_TOGETHER = 256
"""So many plain members are read together."""
_MAGIC, _CHECKSUM = slice(257, 262), slice(148, 156)
_NUMBERS = tuple(slice(at, end) for at, end in ((100, 108), (108, 116), (116, 124), (124, 136)))
_TIME = slice(136, 148)
_OCTAL = re.compile(rb" *[0-7]*[ \0]*")
_BINARY = re.compile(rb"[\x80\xff].*", re.DOTALL)
"""Two's complement, for numbers that octal digits have no room for."""
_ENDS = tuple(
    error
    for error in (getattr(tarfile, name, None) for name in ("EOFHeaderError", "EmptyHeaderError"))
    if error is not None
)
"""How `tarfile` tells the end from a fault. Without these names, each end counts as a fault."""
_POSIX = (tarfile.XHDTYPE, tarfile.XGLTYPE, tarfile.SOLARIS_XHDTYPE)
_EXTENDED = (*_POSIX, tarfile.GNUTYPE_LONGNAME, tarfile.GNUTYPE_LONGLINK)
"""The types of headers with contents, which are read whole."""
_LONGEST, _NUMERAL = 1 << 20, 20
_DIGITS = re.compile(rb"[0-9]{64}")
"""So many digits are no number, but make Pythons before 2024 look through them again and again."""
_LARGE = 8**11
"""The least size that a header has no room for."""


class _Broken(Exception):
    """A header that `tarfile` can't read. It would stop there without an error."""


_FAULTS = (_Broken, tarfile.TarError, OSError, ValueError, EOFError)


class _Header(tarfile.TarInfo):
    """A header, at whose faults reading ends with an error."""

    @classmethod
    def fromtarfile(cls, tarfile: Any) -> Any:
        tarfile.headers += 1
        _check(tarfile.fileobj)
        try:
            return super().fromtarfile(tarfile)
        except _ENDS:
            tarfile.ends += 1
            raise
        except Exception as error:  # of a header, or of a number in it that is out of range
            raise _Broken(f"{error or type(error).__name__}: the rest was not read") from None


def _check(file: Any) -> None:
    """Raises _Broken at a header whose contents cost `tarfile` more time than they have bytes."""
    at = file.tell()
    try:
        header = tarfile.TarInfo.frombuf(file.read(_BLOCK), "utf-8", "surrogateescape")
    except (tarfile.HeaderError, ValueError):
        return
    finally:
        file.seek(at)
    if header.type not in _EXTENDED:
        return
    if header.size > _LONGEST:
        raise _Broken(f"a header has more than {_LONGEST:,} bytes: the rest was not read")
    if header.type in _POSIX:
        file.seek(at + _BLOCK)
        content = file.read(max(header.size, 0))
        file.seek(at)
        if _DIGITS.search(content) or not _has_records(content):
            raise _Broken("a POSIX header is broken: the rest was not read")


def _has_records(content: bytes) -> bool:
    """Whether these are records as POSIX has them: a length, a space, a key, `=` and a value."""
    at = 0
    while at < len(content):
        length, space, _ = content[at : at + _NUMERAL].partition(b" ")
        end = at + int(length) if space and length.isdigit() else at
        key = content.find(b"=", at, end) - at - len(length) - 1
        if key < 1 or end > len(content) or content[end - 1 : end] != b"\n":
            return False
        at = end
    return True


class _Archive(tarfile.TarFile):
    """A tar file, which counts its headers, and the places that mark its end."""

    tarinfo = _Header
    headers = ends = 0

    def following(self, count: int) -> Optional[tarfile.TarInfo]:
        """The next member, with this many in front of it."""
        entry = self.next()
        if self.headers <= count:
            raise _Broken("this Python reads headers in an unknown way")
        return entry


def tar_reading(place: Place) -> Found:
    """What `tarfile` and other readers get to. Some go on behind the end that a file marks, so the
    members there are read too.
    """
    source, odd = place.source, []  # type: Source, List[str]
    values = Values(place, "tar")
    is_behind = not source.front()[:_BLOCK].strip(b"\0")
    at = behind_zeros(source, 0) // _BLOCK * _BLOCK if is_behind else 0
    if not _is_header(source.read(at, _BLOCK)):
        return False
    if is_behind:
        odd.append("it begins with zeros")
    try:
        archive = _Archive(fileobj=source.opened(), mode="r", ignore_zeros=True)
        for entry, other in _entries(place, archive, odd, values):
            yield from values.member(
                _member(place, archive, entry, other)
                if isinstance(entry, tarfile.TarInfo)
                else place.inside(entry.name, source.part(entry.at, entry.size), "tar member")
            )
    except _FAULTS as error:
        odd.append(str(error))
    yield from values.told()
    if odd:
        yield place.unread("tar", "differing-readings", f"{odd[0]}: readers differ")
    return True


def _entries(
    place: Place, archive: _Archive, odd: List[str], values: Values
) -> Iterator[Tuple[Union[tarfile.TarInfo, Plain], Optional[tarfile.TarInfo]]]:
    """The members with contents, each with that of the places of its values. The latter may follow,
    so members with values come last.
    """
    source, count = place.source, 0
    named: Dict[str, tarfile.TarInfo] = {}
    late: List[tarfile.TarInfo] = []
    try:
        while True:
            if count and not (archive.ends or archive.pax_headers):
                for plain in _plain(place, archive, values):
                    place.budget.spend_member()
                    yield plain, None
            entry, count = archive.following(count), count + 1
            if entry is None:
                break
            if archive.ends:
                odd.append("more follows the end marker")
            odd += _oddities(source, archive, entry)
            place.budget.spend_member()
            if not entry.isreg() and entry.type in tarfile.SUPPORTED_TYPES:
                continue
            named[entry.name] = entry
            if places_of(entry.name):
                late.append(entry)
            else:
                yield entry, None
    except _FAULTS as error:
        odd.append(str(error))
    yield from ((entry, named.get(places_of(entry.name))) for entry in late)


def _plain(place: Place, archive: _Archive, values: Values) -> Iterator[Plain]:
    """The plain members that follow, but for those that are told later."""
    members = plain_members(place.source, archive.offset)
    while True:
        those = list(itertools.islice(members, _TOGETHER))
        if not those:
            return
        archive.offset = those[-1].end
        yield from values.batches.left_of(those, partial(_taken_of, place, values))


def _taken_of(place: Place, values: Values, those: Sequence[Plain]) -> int:
    """How many of the first of these are plain values, which are told later."""
    if not (values.is_begun and place.budget.has_members(len(those))):
        return 0
    begins, ends = [it.at for it in those], [it.at + it.size for it in those]
    found = parts_of(place.source, begins, ends)
    count = values.taken_of([it.name for it in those], *found) if found[1] else 0
    place.budget.spend_members(count)
    return count


def may_be_tar(front: bytes) -> bool:
    """Whether a file that begins with these bytes, its first block at least, may be a tar file."""
    return front[:1] == b"\0" or _is_header(front[:_BLOCK])


def _is_header(header: bytes) -> bool:
    """Whether a reader takes it for a header. `tarfile` looks at the checksum alone."""
    try:
        tarfile.TarInfo.frombuf(header, "utf-8", "surrogateescape")
        return True
    except (tarfile.HeaderError, ValueError):
        return len(header) == _BLOCK and header[_MAGIC] == b"ustar"


def _oddities(source: Source, archive: tarfile.TarFile, entry: tarfile.TarInfo) -> List[str]:
    """What readers take differently in a header."""
    found, header = [], source.read(entry.offset_data - _BLOCK, _BLOCK)
    name = repr(entry.name[:80])
    numbers = [header[place] for place in (*_NUMBERS, _TIME)]
    if not _OCTAL.fullmatch(header[_CHECKSUM]) or not all(
        _OCTAL.fullmatch(number) or _BINARY.fullmatch(number) for number in numbers
    ):
        found.append(f"{name} has a number that isn't octal")
    if not {"path", "size", "linkpath"}.isdisjoint(archive.pax_headers or ()):
        found.append("a header for all members names one")
    if "size" in entry.pax_headers and entry.size < _LARGE:
        found.append(f"{name} has two sizes")
    if entry.size and not entry.isreg() and entry.type in tarfile.SUPPORTED_TYPES:
        found.append(f"{name} has contents, but isn't a file")
    if not entry.issparse() and entry.offset_data + entry.size > source.size:
        found.append(f"{name} is truncated")
    return found


def _member(
    place: Place,
    archive: tarfile.TarFile,
    entry: tarfile.TarInfo,
    other: Optional[tarfile.TarInfo],
) -> Place:
    """A member, beside which another may have the places of values."""
    content = _content(place, archive, entry)
    inner = place.inside(entry.name, content, "tar member", content.size < entry.size)
    if other is not None:
        inner = inner._replace(beside=partial(_content, place, archive, other))
    return inner


def _content(place: Place, archive: tarfile.TarFile, entry: tarfile.TarInfo) -> Source:
    if entry.issparse():
        return _expanded(place, archive.extractfile(entry))
    return place.source.part(entry.offset_data, entry.size)


def _expanded(place: Place, file: Any) -> Source:
    """The content of a sparse member, with its holes."""
    made = io.BytesIO()
    while True:
        data = file.read(1 << 20)
        if not data:
            return in_memory(made)
        place.budget.spend_bytes(len(data))
        made.write(data)

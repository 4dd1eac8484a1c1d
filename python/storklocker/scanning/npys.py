"""NumPy's files: arrays, one behind another, and what stands behind them."""

from __future__ import annotations

import ast
import re
from typing import Any, NamedTuple, Optional

from .marks import NPY
from .names import length_at
from .readings import Found, Piece, Place, examine
from .source import BLOCK, Source

_LONGEST = 1 << 16
"""The most bytes of a header. NumPy takes longer ones only from a caller who trusts the file."""
_MOST = 1 << 62
_TYPE = re.compile(r"[<>|=](?:([biufcSUV])|[mM])([0-9]{1,9})(?(1)|(?:\[[0-9a-zA-Z/]*\])?)")
"""A type of plain items, as NumPy writes it. Whatever else it reads may have objects."""
_OBJECT = re.compile(r"\|O[48]?")
_LONG = re.compile(r"(?<=[0-9])L(?=[,)\s])")
"""What Python 2 wrote behind whole numbers."""


class _Header(NamedTuple):
    """The header of an array."""

    length: int
    """Its bytes, with the magic."""
    size: Optional[int]
    """The bytes of the items; None if they are, or may be, pickled objects."""
    fault: str = ""


def npy_reading(place: Place) -> Found:
    """What `numpy.load` gets to, as often as it is called. It loads pickles between arrays too."""
    source = place.source
    at = 0 if source.read(0, 1) == b"\x80" else _behind_pickles(place, 0)
    while source.read(at, len(NPY)) == NPY:
        if at:
            place.budget.spend_member()
        try:
            header = _header_at(source, at)
        except Exception as error:  # of the parser, which hostile headers make raise anything
            why = f"its header can't be read ({type(error).__name__})"
            yield place.unread("npy", "broken-container", why)
            return True
        at += header.length
        if header.fault:
            yield place.unread("npy", "differing-readings", header.fault)
        size = header.size
        if size is None:
            size = yield place.piece("npy", at, True, 1)
        if not size and header.size is None:
            return True
        at += size or 0
        behind = _behind_pickles(place, at)
        if behind > at:
            rows = source.part(at, behind - at)
            yield Piece(place.path, "after an array", rows, True)
            at = behind
    if not at:
        return False
    if at < source.size:
        yield from examine(place.inside("", source.part(at, source.size), "after an array"))
    return True


def _behind_pickles(place: Place, at: int) -> int:
    """Where the next array is, behind pickles at an offset; the offset itself if there is none."""
    source, start = place.source, at
    while source.read(at, len(NPY)) != NPY:
        taken = length_at(source, at, place.budget)
        if not taken or at == start and not _has_magic(source, at):
            return start
        place.budget.spend_pickle()
        at += taken
    return at


def _has_magic(source: Source, at: int) -> bool:
    """Whether an array may begin behind an offset."""
    return any(
        NPY in source.read(start, BLOCK + len(NPY)) for start in range(at, source.size, BLOCK)
    )


def _header_at(source: Source, at: int) -> _Header:
    front = source.read(at, 12)
    width = 2 if front[6:7] == b"\x01" else 4
    length = int.from_bytes(front[8 : 8 + width], "little")
    if length > _LONGEST:
        raise ValueError("its header is too long")
    text = source.read(at + 8 + width, length).decode("latin-1" if front[6] < 3 else "utf-8")
    found = ast.literal_eval(_LONG.sub("", text).strip())
    if set(found) != {"descr", "fortran_order", "shape"} or front[6] not in (1, 2, 3) or front[7]:
        raise ValueError("its header isn't NumPy's")
    if type(found["shape"]) is not tuple or type(found["fortran_order"]) is not bool:
        raise ValueError("its shape or order isn't NumPy's")
    size, fault = _size_of(found["descr"]), ""
    if not _is_written(found["descr"]):
        fault = "its type isn't as NumPy writes it: readers differ in where it ends"
    for count in found["shape"]:
        if type(count) is not int or count < 0 or size is not None and size * count > _MOST:
            size, fault = 0, "its shape is impossible: readers differ in where it ends"
            break
        size = None if size is None else size * count
    return _Header(8 + width + length, size, fault)


def _is_written(kind: Any) -> bool:
    """Whether it is a type as NumPy writes it, so that it is clear whether it has objects."""
    if isinstance(kind, str):
        return bool(_TYPE.fullmatch(kind) or _OBJECT.fullmatch(kind))
    return isinstance(kind, list) and all(
        isinstance(field, tuple)
        and len(field) in (2, 3)
        and _is_name(field[0])
        and _is_written(field[1])
        and (len(field) == 2 or isinstance(field[2], tuple))
        for field in kind
    )


def _size_of(kind: Any) -> Optional[int]:
    """The bytes of an item; None if its type isn't known to be plain."""
    if isinstance(kind, str):
        found = _TYPE.fullmatch(kind)
        return None if found is None else int(found.group(2)) * (4 if found.group(1) == "U" else 1)
    if not isinstance(kind, list):
        return None
    sizes = [_size_of_field(field) for field in kind]
    return None if None in sizes else sum(size for size in sizes if size is not None)


def _size_of_field(field: Any) -> Optional[int]:
    """The bytes of a field: a name, or a title and a name; a type; and perhaps a shape."""
    if not isinstance(field, tuple) or len(field) not in (2, 3) or not _is_name(field[0]):
        return None
    size = _size_of(field[1])
    for count in field[2] if len(field) == 3 and isinstance(field[2], tuple) else ():
        if type(count) is not int or not 0 <= count < _MOST or size is None:
            return None
        size *= count
    return size if len(field) == 2 or isinstance(field[2], tuple) else None


def _is_name(name: Any) -> bool:
    return isinstance(name, str) or (
        isinstance(name, tuple) and len(name) == 2 and all(isinstance(it, str) for it in name)
    )

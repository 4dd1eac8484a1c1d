"""The pickles of a file, or of bytes, each with what it does."""

from __future__ import annotations

import io
from typing import Iterator, List, NamedTuple, Tuple

from .._answers import Verdict
from ..scanning.all_readings import asked
from ..scanning.budget import Budget, TooMuch
from ..scanning.enums import without_members
from ..scanning.joblib_files import WRAPPER_NAMES, without_arrays
from ..scanning.members import GETATTR
from ..scanning.readings import Piece, Place, examine
from ..scanning.report import Finding
from ..scanning.rows import Row, row_of
from ..scanning.source import Source, in_memory
from .machine import STEPS, Machine
from .needles import behind
from .nodes import Node

ENDLESS = 1 << 60
"""As many instructions as there are."""
_FILE, _EACH = 5 * STEPS, 500
"""The most instructions of a file that are explained, but for so many of each pickle."""
_MISREAD = "a reader reads other bytes than are shown, from a frame's end on"


class Followed(NamedTuple):
    """Pickles that follow one another, and what they do."""

    path: str
    kind: str
    source: Source
    events: List[Node]
    is_stream: bool
    steps: int
    """How many instructions were followed."""
    refusal: Tuple[int, str]
    """Where a reader stops, and why; -1 if it doesn't."""
    end: str
    """Why no more is explained; empty if all is."""


def followed_in(path: str, source: Source, is_full: bool) -> Iterator[Followed]:
    """What the pickles in a file do, and in its members."""
    place = Place(path, source, Budget(source.size), asked)
    found, answer, left = examine(place), None, ENDLESS if is_full else _FILE
    is_empty = True
    try:
        while True:
            try:
                it = found.send(answer)
            except StopIteration:
                if is_empty:
                    piece = place.piece("pickle", is_claimed=True)
                    yield followed_row(piece, Row(piece, None, place.budget), left)
                return
            answer = None
            row = row_of(it, None, place.budget) if isinstance(it, Piece) else None
            if row is not None and isinstance(it, Piece):
                if WRAPPER_NAMES.intersection(row.names):
                    it, row = without_arrays(it, row, None, place.budget)
                answer, is_empty = row.taken, False
                for told in _followed(it, row, place.budget, max(left, _EACH)):
                    left -= told.steps
                    yield told
    except TooMuch:
        return  # (the verdict says so)


def _followed(piece: Piece, row: Row, budget: Budget, most: int) -> Iterator[Followed]:
    """What a piece does; of joblib's files without the arrays, and in those of objects."""
    if piece.kind != "joblib" or row.raw:
        yield followed_row(piece, row, most)
        return
    for source in row.sources:
        part = piece._replace(source=source, kind="joblib, without its arrays")
        yield followed_row(part, Row(part, None, budget), most)


def followed_bytes(data: bytes, is_full: bool) -> Followed:
    """What the pickles at the front of these bytes do."""
    source = in_memory(io.BytesIO(data))
    piece = Piece("", "pickle", source, True)
    most = ENDLESS if is_full else STEPS
    return followed_row(piece, Row(piece, None, Budget(len(data))), most)


def followed_row(piece: Piece, row: Row, most: int) -> Followed:
    """What pickles do that follow one another, up to the first that is refused, and that."""
    source = piece.source
    machine = Machine(source, 0, most if most > _FILE else min(most, STEPS))
    machine.gets_members = _gets_members(source, row)
    count, end = row.pickles + (row.refusal is not None), ""
    while machine.pickles < count and machine.at < source.size and not end:
        if not machine.apart():
            end = _end_of(machine)
    if machine.steps > machine.most:
        machine.stop()
        machine.events += behind(row, machine)
    if machine.is_misread:
        end = "; ".join(filter(None, (_MISREAD, end)))
    refusal = (-1, "") if row.refusal is None else _refused(row.refusal)
    is_stream = count > 1
    told = (piece.path, piece.kind, source, machine.events, is_stream, machine.steps, refusal, end)
    return Followed(*told)


def _gets_members(source: Source, row: Row) -> bool:
    """Whether `getattr` is only asked for members of enums, so that a scan says nothing of it."""
    if (b"builtins", b"getattr") not in row.names:
        return False
    asked = [Finding("dangerous-import", "", GETATTR)]
    try:
        return not without_members(asked, source, row.taken, Budget(source.size))
    except TooMuch:
        return False


def _end_of(machine: Machine) -> str:
    if machine.steps > machine.most:
        return f"{machine.most:,} instructions are explained, up to byte {machine.at:,}"
    return f"every reader stops here, at {machine.begun:,}"


def _refused(no: Verdict) -> Tuple[int, str]:
    return no.at, no.line(64).partition(": ")[2]

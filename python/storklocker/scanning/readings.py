"""What the readers that people use would get to in a file.

A file is a set of readings. Each reader's rule is a module of its own, which says whether that
reader would get to a pickle in these bytes, and where. All of them are asked about every file and
every member, but for those that find nothing without a mark that it lacks: that nothing is a pickle
is the conclusion of all, never of the first that knows the file's first bytes. Two that differ
about one file are a finding of their own.

A reading is a generator. It yields a `Piece` for bytes that its reader would load as a pickle, and
gets back how many of them form an accepted pickle; an `Unread` for what it can't say; and `Nothing`
for bytes without a pickle. It returns whether its reader takes the file at all.
"""

from __future__ import annotations

from typing import (
    TYPE_CHECKING, Any, Callable, Generator, List, NamedTuple, Optional, Sequence, Tuple, Union
)

from .budget import DEPTH, STEP, Budget, TooMuch
from .foreign import Foreign, foreign_of
from .recognized import name_of
from .report import LONGEST, Finding
from .severity import UNRECOGNIZED
from .source import Source

if TYPE_CHECKING:
    from .lone import Told


class Piece(NamedTuple):
    """Bytes that a reader would load: a pickle, or a row of them."""

    path: str
    kind: str
    source: Source
    is_claimed: bool = False
    """Whether a reader loads it whatever its first bytes are."""
    most: int = 0
    """How many pickles the reader loads of the row; 0: all."""
    is_cut: bool = False
    """Whether bytes are missing at its end, which is reported."""
    is_remnant: bool = False
    """Whether it may be what is left of another: if it is broken, only its imports count."""


class Unread(NamedTuple):
    """Something that a reading can't say, and why."""

    path: str
    kind: str
    finding: Finding


class Nothing(NamedTuple):
    """Bytes without a pickle, and what they are."""

    path: str
    kind: str
    size: int
    why: str = ""
    finding: Optional[Finding] = None
    """What else their reader does with them, which isn't read here."""


class Together(NamedTuple):
    """Values of a store of which nothing but their imports is to be told."""

    path: str
    kind: str
    number: int
    size: int
    """The bytes of all."""
    imports: int
    """How many all make."""
    told: Tuple["Told", ...]
    """What is to be told of them, each once."""


Answer = Optional[int]
"""The length of the pickles that were accepted in a piece; None if it isn't a pickle."""
Found = Generator[Union[Piece, Unread, Nothing, Together], Answer, bool]


Beside = Callable[[], Optional[Source]]


def nothing() -> Optional[Source]:
    """No file is beside it."""
    return None


class Place(NamedTuple):
    """What is read: bytes, where they are from, and what may be spent on them."""

    path: str
    source: Source
    budget: Budget
    asked: "Asked"
    """Gives the readings that have to be asked about a file."""
    depth: int = DEPTH
    """How many containers may still be opened inside one another."""
    around: str = "pickle"
    """What a pickle is called here."""
    is_cut: bool = False
    """Whether bytes are missing at its end, which is reported."""
    beside: Beside = nothing
    """Gives the file with the places of values in this one, if there is one beside it."""
    is_raw: bool = False
    """Whether its reader takes it for numbers, which may look like a pickle."""

    def piece(self, kind: str, at: int = 0, is_claimed: bool = False, most: int = 0) -> Piece:
        """The bytes from an offset on, as a pickle of this kind."""
        source = self.source.part(at, self.source.size) if at else self.source
        return Piece(self.path, kind, source, is_claimed, most, self.is_cut)

    def inside(self, name: str, source: Source, around: str, is_cut: bool = False) -> "Place":
        """A member of this place, or what it unpacks to if there is no name."""
        path = f"{self.path}!{name[:LONGEST]}" if name else self.path
        return Place(path, source, self.budget, self.asked, self.depth - 1, around, is_cut)

    def foreign(self, it: Foreign) -> Nothing:
        """What this place is that isn't read here."""
        return Nothing(self.path, it.kind, self.source.size, it.why, Finding(it.finding, it.why))

    def unread(self, container: str, kind: str, why: str) -> Unread:
        """A finding about this place."""
        return Unread(self.path, container, Finding(kind, why))


Reading = Callable[[Place], Found]
Asked = Callable[[str, Source], Sequence[Tuple[str, Any]]]
"""Readings by name, for the path of a file or of a member and its bytes."""
_SEARCHED = "searched for pickles, not read as its programs read it"
_ONLY = {
    "npy": "numbers only",
    "SQLite": "no value is itself a pickle",
    **dict.fromkeys(("HDF5", "GDBM", "Berkeley DB", "LMDB", "Arrow", "Parquet"), _SEARCHED),
    "other stores": _SEARCHED,
}
"""What is in a file that a reader takes, and in which it finds no pickle."""


def examine(place: Place) -> Found:
    """All readings of a file or a member. Returns whether any reader takes it."""
    reports = place.budget.reports
    takers: List[str] = []
    if place.depth < 0:
        raise TooMuch(f"containers are nested more than {DEPTH} deep")
    asked = place.asked(place.path, place.source)
    place.budget.spend(2 * STEP * (1 + len(asked)))
    for name, reading in asked:
        if (yield from reading(place)):
            takers.append(name)
    if len(takers) > 1:
        named = " and as ".join(takers)
        yield place.unread("file", "differing-readings", f"it can be read as {named}")
    yield from _told_of(place, takers, reports)
    return bool(takers)


def _told_of(place: Place, takers: List[str], reports: int) -> Found:
    """What is told of a file beside its pickles: the code in it; or else what it is, if there is
    nothing else to tell.
    """
    for it in foreign_of(place.path, place.source, place.budget.spend):
        yield place.foreign(it)
    if len(takers) < 2 and place.budget.reports == reports:
        around = "file" if place.around == "pickle" else place.around
        kind = takers[0] if takers else around
        why = _ONLY.get(kind, "") if takers or place.is_raw else name_of(place.source)
        kind = UNRECOGNIZED if why == UNRECOGNIZED else kind
        yield Nothing(place.path, kind, place.source.size, "" if kind == UNRECOGNIZED else why)
    return True

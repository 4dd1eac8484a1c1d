"""Files of databases, HDF5, Arrow and Parquet, in which programs keep pickles.

They aren't read as their programs read them, but looked through for what begins like a pickle, or
is an import of one.
"""

from __future__ import annotations

import base64
import io
import itertools
import re
import struct
from typing import (
    TYPE_CHECKING, Callable, Container, Deque, Dict, Iterator, List, NamedTuple, Optional, Sequence,
    Tuple,
)

from .._answers import Verdict
from .._reasons import Reason
from .blocks import (
    FIRST, FRAME, LONGEST, PROTO, Block, blocks, is_harmful_pair, joined_parts, shown_in
)
from .budget import LOOKED_AT, STEP, Budget
from .dangers import may_be_imported, may_be_there
from .marks import HDF5, LMDB
from .names import NOTHING, imports_within, verdict_on
from .reaching import ALL_STOP, reached, reached_within
from .readings import Found, Piece, Place, Reading, examine
from .recognized import is_text
from .source import BLOCK, Source, in_memory
from .spelled import LENGTHS
from .trails import Trail, Trails
from .values import Values

if TYPE_CHECKING:
    from .._pairs import Names

_APART, _LEAST = "HDF5", 16
"""What is unpacked in another way; and the fewest bytes of what is packed and imports something."""
_NEAR = 64
"""How many bytes in front of a trail are tried as the beginning of its pickle."""
_MOST, _FOOTER = 1 << 20, 1 << 20
_RECORD = 8
"""So many bytes of imports are listed in one step."""
_FEW, _TOGETHER = 64, 1 << 12
"""The fewest and the most values of a block that are looked at together."""
_GDBM = tuple(
    struct.pack(f"{order}I", number)
    for number in (0x13579ACD, 0x13579ACE, 0x13579ACF, 0x13579AD0, 0x13579AD1)
    for order in "<>"
)
_MAGICS: Dict[str, List[Tuple[int, Tuple[bytes, ...]]]] = {
    "HDF5": [(at, (HDF5,)) for at in (0, *(512 << power for power in range(48)))],
    "GDBM": [(0, _GDBM)],
    "LMDB": [(16, (LMDB,))],
    "Arrow": [(0, (b"ARROW1", b"FEA1"))],
    "Parquet": [(0, (b"PAR1",))],
}
"""Where each format has one of which bytes."""
_LEFT = ("GDBM", "LMDB")
_SCHEMA = re.compile(rb"ARROW:schema.{0,16}?([A-Za-z0-9+/]{64,}={0,2})", re.DOTALL)
"""Where a Parquet file has the schema of Arrow, which may hold pickles."""


def _reading(name: str) -> Reading:
    def reading(place: Place) -> Found:
        if not _has_one(place.source, _MAGICS[name]):
            return False
        # (pages and blocks that are free keep what they had, in parts)
        size = place.source.size
        yield from searched(place, name, end_of=(lambda _: size) if name in _LEFT else None)
        for source in _schemas(place.source) if name == "Parquet" else ():
            yield from searched(place.inside("schema", source, name), name)
        return True

    return reading


def searched(
    place: Place,
    kind: str,
    known: Sequence[Tuple[int, int]] = (),
    told: Container[int] = (),
    end_of: Optional[Callable[[int], int]] = None,
    hidden: Tuple[List[int], List[int]] = ([], []),
) -> Found:
    """The pickles that begin anywhere, but in parts that are known, each from an offset to another,
    in their order; of these, what imports something harmful, but for pickles that were told, into
    which it isn't looked.

    end_of: where the page ends that has a place, if what follows a page is another matter.
    hidden: where parts begin and end, in their order, into which it isn't looked either.
    """
    source, end = place.source, 0
    trails, left = Trails(source, place.budget), Deque(known)
    values = Values(place, kind, (_FEW, _TOGETHER))
    if told:
        those = joined_parts([part for part in known if part[0] in told])
        hidden = [at for at, _ in those], [behind for _, behind in those]
    for block in blocks(source, place.budget, hidden, values):
        block.end = end
        if values.is_begun:
            block.look_ahead(left)
        for at, is_text in block.places(trails, place.budget, not (known or told)):
            while left and left[0][0] <= at:
                block.end = max(block.end, left.popleft()[1])
            for trail in trails.followed(at) if trails.is_any else ():
                yield _piece(place, kind, _start_of(trail, place))
            if is_text and (at >= block.end or trails.is_at(at)):
                trails.begin(at)
            elif not (is_text or at in told):
                yield from _looked_at(place, kind, at, block, end_of)
        block.count()
        end = block.end
        if not kind.startswith(_APART) and block.gap >= _LEAST:
            yield from _packed(place, kind, block)
    for trail in trails.followed(source.size):
        yield _piece(place, kind, _start_of(trail, place))
    yield from values.told()
    return True


def examined_value(place: Place) -> Found:
    """All readings of a value of a store; if no reader takes it, the pickles that are in it."""
    if (yield from examine(place)):
        return True
    return (yield from searched(place, place.around))


def _packed(place: Place, kind: str, block: Block) -> Found:
    """The values that are packed, each as a whole, and begin in a block."""
    source, budget = place.source, place.budget
    for at, made in block.packed(source, budget):
        if not made.size or not is_value(made, budget):
            continue
        if made.size > BLOCK or block.values.taken(made.front()) != made.size:
            where = f"{place.path}!at {block.start + at}"
            yield Piece(where, f"{kind}, packed", made, True, 1, is_remnant=True)
    return True


def _looked_at(
    place: Place, kind: str, at: int, block: Block, end_of: Optional[Callable[[int], int]]
) -> Found:
    """What begins at a place of a block, where no text does."""
    source, budget, values = place.source, place.budget, block.values
    if at < block.end:
        if _is_harm(source, at, budget):
            yield _piece(place, kind, at)  # (what seems to be in another may be a value of its own)
    elif at in block.plain:
        block.take(at)
    elif _is_plain(source, at, values):
        block.end = at + values.last
    elif _is_found(source, at, budget):
        page_end = 0 if end_of is None or _is_harm(source, at, budget) else end_of(at)
        block.end = at + ((yield _piece(place, kind, at, page_end)) or 0)
    return True


def _piece(place: Place, kind: str, at: int, end: int = 0) -> Piece:
    """The pickle at a place, or what is left of it up to another."""
    rest = place.source.part(at, (end or place.source.size) - at)
    return Piece(f"{place.path}!at {at}", kind, rest, True, 1, is_remnant=end > 0)


def _start_of(trail: Trail, place: Place) -> int:
    """Where the pickle begins that a trail is in: the first place that shows what it imports, or
    else where the trail begins.
    """
    first = trail.starts[0]
    near = range(first - 1, max(0, first - _NEAR) - 1, -1)
    for at in itertools.chain(trail.starts, near):
        if _is_harm(place.source, at, place.budget):
            return at
    return first


def _has_one(source: Source, magics: List[Tuple[int, Tuple[bytes, ...]]]) -> bool:
    """Whether the source has some of these bytes at their places."""
    front = source.front()
    for at, those in magics:
        if at >= source.size:  # as all that follow
            break
        if front.startswith(those, at) or at >= BLOCK and source.read(at, len(those[0])) in those:
            return True
    return False


def _schemas(source: Source) -> Iterator[Source]:
    """The schemas of Arrow in the footer of a Parquet file."""
    for found in _SCHEMA.finditer(source.read(max(0, source.size - _FOOTER), _FOOTER)):
        text = found.group(1).rstrip(b"=")
        yield in_memory(io.BytesIO(base64.b64decode(text[: len(text) // 4 * 4])))


def _is_plain(source: Source, at: int, values: Values) -> bool:
    """Whether a plain value begins at a place, which is told later."""
    return source.read(at, 1) == b"\x80" and values.taken(source.read(at, FIRST)) > 0


def _is_harm(source: Source, at: int, budget: Budget) -> bool:
    """Whether a pickle there imports something that is known to do harm; where an import stands,
    whether that does. (Each other one has a place of its own.) A frame may not be its first.
    """
    data = source.read(at, LONGEST)
    shown = shown_in(data, 0)
    budget.spend()
    found = imports_at(source, at, budget).names if shown is None else [shown]
    if any(map(is_harmful_pair, found)):
        return True
    return data[:1] == FRAME and any(map(is_harmful_pair, reached_within(source, at, budget).names))


def _is_found(source: Source, at: int, budget: Budget) -> bool:
    """Whether a pickle begins at a place to which a search comes."""
    data = source.read(at, LONGEST)
    shown = shown_in(data, 0)
    if data[:1] == FRAME:
        return _is_harm(source, at, budget)
    if shown is None:
        return is_pickle(source, at, budget)
    verdict = verdict_on(source.read(at, FIRST))
    budget.spend(3 * STEP + max(verdict.taken, verdict.at) // LOOKED_AT)
    return is_harmful_pair(shown) or bool(verdict)  # (other imports have places of their own)


def is_pickle(source: Source, at: int, budget: Budget) -> bool:
    """Whether a pickle there is accepted, or imports something; without a PROTO in front, something
    that is known to do harm, because texts have lines that look like imports.
    """
    found = imports_at(source, at, budget)
    if found.verdict or not found.is_complete:
        return True
    is_claimed = source.read(at, 1) == b"\x80"
    return bool(found.names) if is_claimed else any(map(is_harmful_pair, found.names))


def is_value(source: Source, budget: Budget) -> bool:
    """Whether a value is a pickle from its first byte on: it has PROTO in front and is accepted, or
    imports something. A text must do so up to its end, or import what is known to do harm: texts
    have lines that look like imports.
    """
    front = source.read(0, 2)
    if front[:1] == b"\x80":
        return PROTO.match(front) is not None and is_pickle(source, 0, budget)
    if front[0] not in LENGTHS:
        return False
    found = imports_at(source, 0, budget)
    if found.end == source.size or not is_in_words(source):
        names = itertools.takewhile(_is_asked_by(may_be_imported), found.names)
        return any(True for _ in names) or not found.is_complete
    names = itertools.takewhile(_is_asked_by(may_be_there), found.names)
    return any(map(is_harmful_pair, names))


class _Imports(NamedTuple):
    """What the most lenient reader imports of a pickle."""

    verdict: Verdict
    names: Dict["Names", None]
    is_complete: bool
    """Whether these are all imports."""
    end: int
    """Behind STOP, if a reader gets there."""


def imports_at(source: Source, at: int, budget: Budget) -> _Imports:
    """What a pickle there imports; or some of it, if that has PROTO in front or does harm."""
    size = FIRST
    while True:
        data = source.read(at, size)
        found = imports_within(data, NOTHING)
        looked_at = max(found.verdict.taken, found.verdict.at)
        budget.spend(STEP + looked_at // LOOKED_AT + found.size // _RECORD)
        is_cut = found.verdict.reason is Reason.Truncated and len(data) == size < _MOST
        is_enough = bool(found.names) and data[:1] == b"\x80"
        is_enough |= any(map(is_harmful_pair, found.names))
        if found.verdict or is_enough and is_cut or not found.is_complete:
            return _Imports(*found[:3], at + found.verdict.taken)
        if not is_cut:
            break
        size *= 16
    if found.verdict.reason in ALL_STOP:
        return _Imports(*found[:3], 0)
    beyond = reached(source, at, at + found.verdict.at, found.verdict.reason, budget)
    names = {**found.names, **beyond.names}
    end = beyond.end if beyond.is_ended else 0
    return _Imports(found.verdict, names, beyond.is_complete, end)


def is_in_words(source: Source) -> bool:
    """Whether a value is a text, whose lines may look like imports."""
    front = source.front()
    cut = 3 if len(front) < source.size else 0  # of the last character
    return is_text(front) and len(front.decode("utf-8", "ignore").encode()) >= len(front) - cut


def _is_asked_by(may_be: Callable[[str, str], bool]) -> Callable[["Names"], bool]:
    """Whether a reader gets beyond a name: it is hidden, or this may be one."""

    def is_asked(names: "Names") -> bool:
        module, name = names
        if module is None or name is None:
            return True
        return may_be(module.decode("utf-8", "replace"), name.decode("utf-8", "replace"))

    return is_asked


STORES: Dict[str, Reading] = {name: _reading(name) for name in _MAGICS}
"""The readings, by the name of the format."""

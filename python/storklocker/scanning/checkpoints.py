"""torch's distributed checkpoints: files of zip files, one behind another. Where each of these is
stands in a pickle beside them, `.metadata`, which must lead to these and nowhere else.
"""

from __future__ import annotations

import re
from typing import Iterator, List, Optional, Set, Tuple

from .budget import LOOKED_AT, STEP, Budget
from .checkpoint_places import Records
from .following import NotFollowed
from .names import length_at
from .places import METADATA, PART
from .readings import Found, Place, examine
from .source import Source
from .stores import searched
from .zip_layout import END, END_SIZE, directories, entries, fault_of, local_at

_STEP = 1 << 20
_KIND = "distcp"
_METADATA = re.compile(rf"(__[0-9]+)?{re.escape(METADATA)}")
"""The file for all processes, or for one of them."""


def checkpoint_reading(place: Place) -> Found:
    """What torch gets to in its own files. Returns whether this is one, and nothing else."""
    if not place.path.lower().endswith(PART):
        return False
    end, known, parts = 0, [], set()  # type: int, List[Tuple[int, int]], Set[Tuple[int, int]]
    for part, members in _parts(place.source, place.budget):
        place.budget.spend_member()
        yield from examine(place.inside(f"at {end}", part, "zip"))
        for member in members:
            at = end + member
            known.append((at, at + length_at(place.source, at, place.budget)))
        parts.add((end, part.size))
        end += part.size
    if end < place.source.size:
        why = "it isn't zip files, one after another: what a reader reaches is unknown"
        yield place.unread(_KIND, "broken-container", why)
    yield from searched(place, _KIND, known)
    beside = place.beside()
    if beside is not None:
        yield from _recorded(place, beside, parts)
    return end == place.source.size > 0


def _recorded(place: Place, beside: Source, parts: Set[Tuple[int, int]]) -> Found:
    """Whether the records beside it lead to its parts, and nowhere else."""
    place.budget.grow(2 * beside.size)  # to follow instructions takes longer than a check
    name = _name_of(place)
    try:
        if not length_at(beside, 0, place.budget):
            raise NotFollowed("it isn't a pickle that a list accepts")
        for record in Records(beside, place.budget.spend).found():
            if record.file.lower() == name and (record.offset, record.length) not in parts:
                why = f"by {METADATA}, a value of {record.length:,} bytes is at {record.offset:,}"
                yield place.unread(_KIND, "differing-readings", f"{why}, where no zip file is")
                break
    except NotFollowed as error:
        yield place.unread(_KIND, "broken-container", f"{METADATA} can't be read: {error}")
    return True


def records_reading(place: Place) -> Found:
    """Which files torch gets to by the records in a `.metadata`. It is loaded as a pickle, too."""
    if not place.path.lower().endswith(METADATA):
        return False
    named = _METADATA.fullmatch(_name_of(place))
    if named is None or not length_at(place.source, 0, place.budget):
        return False
    place.budget.grow(place.source.size)
    try:
        found = Records(place.source, place.budget.spend).found()
    except NotFollowed as error:
        why = f"where torch finds values is unknown: {error}"
        yield place.unread(_KIND, "broken-container", why)
    else:
        if found and named.group(1):
            why = "the places in a file for one process are not compared with its files here"
            yield place.unread(_KIND, "unknown-container", why)
    return False


def _name_of(place: Place) -> str:
    """The name of the file, in small letters."""
    return re.split("[/!]", place.path)[-1].lower()


def _parts(source: Source, budget: Budget) -> Iterator[Tuple[Source, List[int]]]:
    """The zip files, up to what isn't one that all readers read alike, and where in each the
    contents of members begin.
    """
    start = 0
    for at in _ends(source, budget):
        part = source.part(start, at + END_SIZE - start)
        members = _members(part, budget) if at >= start else None
        if members is not None:
            yield part, members
            start += part.size
        budget.spend(4 * STEP)


def _ends(source: Source, budget: Budget) -> Iterator[int]:
    """The places that look like those of end records."""
    for start in range(0, source.size, _STEP):
        block = source.read(start, _STEP + len(END) - 1)
        budget.spend(STEP + len(block) // LOOKED_AT)
        at = block.find(END)
        while at >= 0:
            yield start + at
            at = block.find(END, at + 1)


def _members(part: Source, budget: Budget) -> Optional[List[int]]:
    found = next(directories(part), None)
    if found is None or found.at != part.size - END_SIZE:
        return None
    members = list(entries(part, found.start, found))
    budget.spend(2 * STEP * len(members))
    if fault_of(part, found, members):
        return None
    return [local.data for local in (local_at(part, it.at) for it in members) if local is not None]

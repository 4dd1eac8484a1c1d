"""The one word that every format says of a file or a member, and the line above a report."""

from __future__ import annotations

import enum
from typing import Dict, Iterable

from .severity import (
    DANGER, NOTE, REFUSED, SEVERITIES, UNDECIDED, UNKNOWN, UNREADABLE, WARNING
)


class Word(str, enum.Enum):
    """What is known of a file or a member, the worst first."""

    REFUSED = "refused"
    """A guard with this list refuses it."""
    DANGEROUS = "dangerous"
    """It imports a name that runs code or writes files."""
    UNREADABLE = "unreadable"
    """Its content, or its rest, could not be determined."""
    UNDECIDED = "undecided"
    """The list permits its names, but only a guard that loads it can judge their arguments."""
    WARNING = "warning"
    """The worst finding is a warning."""
    UNKNOWN = "unknown"
    """It imports a name that nobody has judged."""
    UNJUDGED = "unjudged"
    """There is no list, and nothing worse was found."""
    ACCEPTED = "accepted"
    """A guard with this list loads it."""
    CODE = "code"
    """It is code, or leads to code, that `scan` doesn't read."""
    NO_PICKLE = "no pickle"
    """No reader reaches a pickle in it."""

    def __str__(self) -> str:
        return str(self.value)

    def __format__(self, form: str) -> str:
        return str.__format__(self.value, form)


_MILD = (Word.UNJUDGED, Word.ACCEPTED, Word.UNDECIDED, Word.CODE)
"""What becomes unreadable with a part that is."""

HEADLINES: Dict[str, str] = {
    REFUSED: "Don't load the refused files: the list doesn't permit what they do",
    DANGER: "Don't load the dangerous files: they run code",
    UNREADABLE: "Don't load the unreadable files: they could not be read to their end",
    UNDECIDED: "Load the undecided files only through a guard: only a load decides about them",
    WARNING: "No name known to run code was found, but some names do more than hold data",
    UNKNOWN: "Don't load the unknown files yet: nobody has judged what their names do",
    NOTE: "No name known to run code was found in what could be read",
    Word.UNJUDGED: "No name known to run code was found; no list has judged these files:"
    " if you trust their source, `storklocker learn` writes one",
    Word.ACCEPTED: "A guard with this list loads these files",
    Word.NO_PICKLE: "No pickle was found",
}
"""What to do, by the worst severity of all findings; if there is none, by the worst word."""


def worst_of(severities: Iterable[str]) -> str:
    """The worst of these severities; empty if there is none."""
    return min(severities, key=SEVERITIES.index, default="")


def headline_of(severities: Iterable[str], words: Iterable[Word]) -> str:
    """Which of `HEADLINES` stands above a report with such findings and files of these words."""
    order = list(Word)
    return worst_of(severities) or min((*words, Word.NO_PICKLE), key=order.index).value


def word_of(status: Word, severities: Iterable[str]) -> Word:
    """The word for a file with findings of these severities, of which the checker says `status`."""
    worst = worst_of(severities)
    if worst == DANGER and status in (Word.UNJUDGED, Word.UNREADABLE):
        return Word.DANGEROUS
    if worst == UNREADABLE and status in _MILD:
        return Word.UNREADABLE
    if worst in (WARNING, UNKNOWN) and status in (Word.UNJUDGED, Word.CODE):
        return Word(worst)
    return status

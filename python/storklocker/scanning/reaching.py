"""Whether a reader gets to an import, or to the end, of a pickle that the checker refuses.

Both readers of CPython are followed where they differ.
"""

from __future__ import annotations

from typing import Optional

from .._reasons import Reason
from .budget import LOOKED_AT, Budget
from .lenient import STEPS, Followed, Walk, acts_of
from .source import Source
from .spelled import Stop

READERS_STOP = frozenset(
    (
        Reason.Truncated,
        Reason.UnknownOpcode,
        Reason.UnsupportedProtocol,
        Reason.MissingMark,
        Reason.MissingItem,
        Reason.MissingMemo,
        Reason.OddItems,
        Reason.NotText,
    )
)
"""Reasons of the checker at which CPython's readers raise an error too, but for an INST without a
mark, and a line without a line feed.
"""

_EACH = 4
"""The steps of an instruction that is followed."""

ALL_STOP = (Reason.UnknownOpcode, Reason.UnsupportedProtocol)
"""Those at which there are no exceptions."""


class FrameByFrame(Walk):
    """Follows a pickle as the reader in C does a file, which drops the front of an argument that
    crosses a frame's end.
    """

    def _begin(self, count: int) -> None:
        """Goes to where an argument of so many bytes is read."""
        if self.at < self._frame < self.at + count:
            self.at = self._frame

    def take(self, count: int) -> bytes:
        self._begin(count)
        return super().take(count)

    def skip(self, count: int) -> None:
        self._begin(count)
        super().skip(count)

    def line(self, may_be_last: bool = False) -> bytes:
        begin, line = self.at, super().line(may_be_last)
        if begin < self._frame < self.at:
            self.at = self._frame
            return super().line(may_be_last)
        return line

    def frame(self) -> None:
        count = int.from_bytes(self.exactly(8), "little")
        if self.at + count <= self._frame:
            return
        self.at = max(self.at, self._frame)
        self._frame = self.at + count
        if self._frame > self.source.size:
            raise Stop


FrameByFrame.acts = acts_of(FrameByFrame)


def followed_from(source: Source, at: int, is_open: bool = False) -> Followed:
    """Follows the pickle that begins at a place; or, if it is open, one that began in front of it.
    """
    walk = Walk(source, at, is_open)
    is_ended, is_complete = walk.through()
    is_complete &= not walk.is_misread
    found = Followed(
        walk.names, is_ended, walk.at, is_complete, walk.steps, walk.has_numbered, walk.is_misread
    )
    if not walk.is_misread:
        return found
    other = FrameByFrame(source, at, is_open)
    is_ended |= other.through()[0]
    names = {**walk.names, **other.names}
    return found._replace(names=names, is_ended=is_ended, steps=walk.steps + other.steps)


def reached(
    source: Source, begin: int, at: int, reason: Optional[Reason], budget: Budget
) -> Followed:
    """What a reader may get to in the pickle that begins at a place, which the checker refuses at
    another for this reason. All imports are told of a pickle of no more than `STEPS` instructions.
    """
    if at == begin and reason in ALL_STOP:
        return Followed({}, False, at, True, 0)
    found = followed_from(source, begin)
    budget.spend(_EACH * found.steps + (found.end - begin) // LOOKED_AT)
    if found.is_complete or found.steps <= STEPS or found.end > at:
        return found
    code = source.read(at, 1)
    if reason in READERS_STOP and code not in (b"c", b"i"):
        return found._replace(is_complete=reason is not Reason.Truncated)
    behind = reached_within(source, at, budget)
    return behind._replace(names={**found.names, **behind.names})


def reached_within(source: Source, at: int, budget: Budget) -> Followed:
    """What a reader may get to from a place on in a pickle that began in front of it."""
    found = followed_from(source, at, True)
    budget.spend(_EACH * found.steps + (found.end - at) // LOOKED_AT)
    return found

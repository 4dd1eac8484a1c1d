"""Whether pickles call what calls of their own have made, which may do what no name shows: a
signature of Celery runs the task that a text names.
"""

from __future__ import annotations

from typing import Dict, List, Sequence, Tuple

from .._storklocker import begin_uses, unjudged, uses, walked
from .._substitute import IS_WRAPPER, NUMBERED
from .budget import LOOKED_AT
from .joblib_cutting import WRAPPERS
from .report import Finding
from .source import Source

LARGEST = 1 << 28
"""The most bytes of a file whose calls are followed."""


_WRAPPERS = frozenset(name.encode() for _, name in WRAPPERS)


def _role_of(module: bytes, name: bytes) -> int:
    """The role of what these instructions import. Without a list no name has a substitute, and what
    wrappers make is called where a file of joblib has an array.
    """
    if not any(wrapper in name for wrapper in _WRAPPERS):
        return 0
    from .._uses import named_by  # few files are joblib's

    return IS_WRAPPER * NUMBERED + 1 if named_by(module, name, False) in WRAPPERS else 0


class Look:
    """A look at pickles for what is told of them without a list, besides their names."""

    def __init__(self) -> None:
        self._steps = 0
        self._numbers: Dict[bytes, int] = {}

    def spent(self) -> int:
        """The steps that it has taken since it was last asked."""
        steps, self._steps = self._steps, 0
        return steps

    def unfound(self, values: List[bytes], start: int) -> int:
        """The index from which on there may be anything to be told of these pickles."""
        found = unjudged(values, start, _role_of, self._numbers, True, False)
        self._steps += found - start + sum(map(len, values[start:found])) // LOOKED_AT
        return found

    def finds(self, data: bytes) -> bool:
        """Whether anything is to be told of a pickle."""
        self._steps += 1 + len(data) // LOOKED_AT
        return why_of(data, 0) != ""


def why_of(data: bytes, at: int) -> str:
    """What is to be told of the calls of the pickle at an offset."""
    _, is_whole, number, place, _ = uses(begin_uses(), data, at, _role_of, True)
    if place >= 0 and number < 0:
        return f"at byte {place:,} it calls the result of its own call"
    return "" if is_whole else "its calls can't be followed: no pickler writes such a pickle"


def called_findings(held: Sequence[Tuple[Source, int]]) -> List[Finding]:
    """The finding on the calls of accepted pickles, of which each source has so many."""
    for source, most in held:
        data, at = (b"" if source.size > LARGEST else source.read(0, source.size)), 0
        for _ in range(most):
            end, is_stopped = walked(data, at)
            why = why_of(data, at) if is_stopped else ""
            if why:
                return [Finding("called-answer", why)]
            if not is_stopped:
                break
            at = end
    return []

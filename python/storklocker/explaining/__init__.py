"""What loading a pickle would do, as Python that a person reads. Nothing in it is run.

    print(storklocker.explain(data))

The statements are those that the most lenient of CPython's readers gets to. Python has no words for
some instructions, for which these functions stand:

    setstate(x, state)         BUILD: x.__setstate__(state), or what x has none: an update of
                               x.__dict__, and of attributes by the second item of a pair
    find_class(module, name)   an import whose name is computed, or is none of Python
    instantiate(x)             INST and OBJ without arguments: x(), or x.__new__(x) of a class
    extension(number)          EXT1, EXT2, EXT4: what copyreg has registered
    persistent_load(x)         PERSID, BINPERSID
    next_buffer(), readonly(x) out-of-band buffers

These statements are tested, and not proved.
"""

from __future__ import annotations

import io
from typing import List, NamedTuple, Tuple, Union

from ..scanning.judging import Question, reports_of
from ..scanning.report import Report
from ..scanning.words import HEADLINES, Word, headline_of
from .pickles import followed_bytes
from .printing import Line, Part, part_of

__all__ = ["Explanation", "Line", "Part", "explain"]


class Explanation(NamedTuple):
    """What loading bytes would do. As a text it is what the command prints."""

    verdict: str
    """The word of a scan."""
    headline: str
    """What to do."""
    part: Part

    @property
    def lines(self) -> Tuple[Line, ...]:
        """All statements."""
        return tuple(self.part.lines)

    def __str__(self) -> str:
        return "\n".join([f"# {self.verdict}: {self.headline}", *self.part.written()])


def explain(data: Union[bytes, bytearray, memoryview], *, full: bool = False) -> Explanation:
    """Explains the pickle at the front of these bytes, or the pickles that follow one another.

    full: whether everything is written; otherwise large values and many statements are folded.
    """
    data = bytes(data)
    word, headline = verdict_of(list(reports_of("", io.BytesIO(data), Question(as_program=True))))
    part = part_of(followed_bytes(data, full), full)
    return Explanation(word, headline, part._replace(lines=tuple(part.lines)))


def verdict_of(reports: List[Report]) -> Tuple[str, str]:
    """The word of a scan for a file, and what to do."""
    order = list(Word)
    word = min((it.status for it in reports), key=order.index, default=Word.NO_PICKLE)
    severities = {finding.severity for it in reports for finding in it.findings}
    return word.value, HEADLINES[headline_of(severities, [word])]

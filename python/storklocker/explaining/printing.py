"""An explanation as text, or as JSON."""

from __future__ import annotations

import io
import itertools
from typing import Any, Dict, Iterable, Iterator, List, NamedTuple, Optional, Tuple

from ..scanning.colour import Paint, plain
from ..scanning.report import shown
from ..scanning.source import source_of
from .judged import HIDDEN, Name, names_in, row_of
from .nodes import BAD, COMMENTS, IMPORT, Node
from .payloads import Bill, Opener
from .pickles import Followed, followed_in
from .writing import Statement, Writer

LINES, BAD_LINES = 400, 40
"""The most statements of a pickle that are written, and of those the dangerous ones that come
first, unless all are asked for.
"""
_INNER = 16
"""The most pickles of a payload that are explained."""
_INDENT = "#     "


class Line(NamedTuple):
    """A statement, as it is written."""

    at: int
    text: str
    severity: str
    """How bad the names are that it calls or imports; empty if it has none."""
    note: str = ""
    """What is known of the name that it imports."""
    opened: Tuple[str, ...] = ()
    """What its arguments hide."""

    def written(self, paint: Paint = plain, front: str = "") -> Iterator[str]:
        """The statement, and below it what it hides."""
        note = f", {self.note}" if self.note else ""
        text = paint(self.text, self.severity) if self.severity in BAD else self.text
        yield f"{front}{text}  # at {self.at}{note}" if self.at >= 0 else self.text
        for place, line in enumerate(self.opened):
            yield f"{_INDENT}{'        ' if place else 'opened: '}{paint(line, self.severity)}"


_Written = Tuple[Line, Optional[Node]]


class Part(NamedTuple):
    """The explanation of a pickle, or of a stream of pickles."""

    path: str
    kind: str
    names: Tuple[Name, ...]
    unlisted: int
    """How many names more it imports."""
    worst: Tuple[Line, ...]
    """The dangerous statements."""
    lines: Iterable[Line]
    """All statements, which are read once."""

    def as_dict(self) -> Dict[str, Any]:
        """The same for JSON."""
        return {
            "path": self.path,
            "kind": self.kind,
            "imports": [it._asdict() for it in self.names],
            "unlisted": self.unlisted,
            "dangerous": [it._asdict() for it in self.worst],
            "statements": [it._asdict() for it in self.lines],
        }

    def written(self, paint: Paint = plain) -> Iterator[str]:
        """The lines of the explanation."""
        if self.names:
            yield "# imports:"
        for it in self.names:
            yield f"{_INDENT}{it.name}  {paint(it.line, it.severity)}"
        if self.unlisted:
            yield f"{_INDENT}{self.unlisted:,} more"
        if self.worst:
            yield "# dangerous statements:"
        for line in self.worst:
            yield from line.written(paint, _INDENT)
        if len(self.worst) == BAD_LINES:
            yield f"{_INDENT}and perhaps more, among all statements"
        lines = iter(self.lines)
        first = next(lines, None)
        if first is None:
            return
        if self.names:
            yield "# all statements:"
        for line in itertools.chain([first], lines):
            yield from line.written(paint)


def part_of(followed: Followed, is_full: bool) -> Part:
    """The explanation of pickles."""
    opener = Opener(followed, _inner)
    if is_full:
        worst = list(_worst(followed, opener)) if any(map(is_bad, followed.events)) else []
        written = _lines(followed, _statements(followed, True), True)
        lines: Iterable[Line] = _opened(written, opener if worst else None)
    else:
        worst, lines = _folded(followed, opener)
    names, unlisted = names_in(followed.events)
    return Part(followed.path, followed.kind, tuple(names), unlisted, tuple(worst), lines)


def _inner(data: bytes, depth: int, bill: Bill) -> Iterator[str]:
    """The explanation of a pickle in a payload."""
    source = source_of(io.BytesIO(data))
    for followed in itertools.islice(followed_in("", source, False), _INNER):
        if followed.path:
            yield shown(f"# {followed.path}  {followed.kind}")
        for line in _folded(followed, Opener(followed, _inner, depth, bill))[1]:
            yield from line.written()


def _statements(followed: Followed, is_full: bool) -> Iterator[Statement]:
    return Writer(followed.source, is_full, followed.is_stream).statements(followed.events)


def _folded(followed: Followed, opener: Opener) -> Tuple[List[Line], Tuple[Line, ...]]:
    """The dangerous statements, and the first of all. What the dangerous ones hide is opened before
    the others may use up what opening may cost.
    """
    worst: List[Line] = []
    statements = _noted(_statements(followed, False), opener, worst)
    lines = list(_lines(followed, statements, False))
    return worst, tuple(_opened(lines, opener if worst else None))


def _noted(
    statements: Iterator[Statement], opener: Opener, worst: List[Line]
) -> Iterator[Statement]:
    """The statements, of which the dangerous ones are kept too."""
    for it in statements:
        if len(worst) < BAD_LINES and is_bad(it.event):
            line = _line(it)
            worst.append(line._replace(opened=tuple(opener.lines(it.event, True))))
            it = it._replace(pieces=iter([line.text]))
        yield it


def _opened(lines: Iterable[_Written], opener: Optional[Opener]) -> Iterator[Line]:
    """Lines with what they hide, if there is an opener."""
    for line, it in lines:
        if opener and it is not None:
            line = line._replace(opened=tuple(opener.lines(it, is_bad(it))))
        yield line


def _worst(followed: Followed, opener: Opener) -> Iterator[Line]:
    """The dangerous statements."""
    bad = (it for it in _statements(followed, False) if is_bad(it.event))
    for it in itertools.islice(bad, BAD_LINES):
        yield _line(it)._replace(opened=tuple(opener.lines(it.event, True)))


def is_bad(it: Node) -> bool:
    """Whether an event does what may do harm."""
    return it.severity in BAD and it.kind != IMPORT


def _line(it: Statement) -> Line:
    is_named = it.event.kind == IMPORT or it.event.kind in HIDDEN
    note = row_of(it.event).note if is_named else ""
    return Line(it.at, "".join(it.pieces), it.event.severity, note)


def _lines(
    followed: Followed, statements: Iterator[Statement], is_full: bool
) -> Iterator[_Written]:
    """All statements, up to a number of them, and where readers stop; each with its event."""
    fault, why = followed.refusal
    count = left = 0
    for it in statements:
        if 0 <= fault <= it.at:
            yield from ((line, None) for line in _stopped(fault, why))
            fault = -1
        count += 1
        if count > LINES and not is_full:
            left += 1
        elif it.event.kind in COMMENTS:
            yield _comment("".join(it.pieces)), None
        else:
            yield _line(it), it.event
    if left:
        yield _comment(f"# ... {left:,} more statements (--full has them)"), None
    if fault >= 0:
        yield _comment(f"# here a reader stops: {why} at {fault}"), None
    if followed.end:
        yield _comment(f"# {followed.end}"), None


def _stopped(fault: int, why: str) -> List[Line]:
    """What is said in front of statements that not all readers get to."""
    return [
        _comment(f"# here a reader stops: {why} at {fault}"),
        _comment("# what the most lenient reader does behind it:"),
    ]


def _comment(text: str) -> Line:
    return Line(-1, text, "")

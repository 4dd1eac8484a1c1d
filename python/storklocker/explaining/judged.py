"""What the catalogue says of the names in an explanation, in the words of a scan."""

from __future__ import annotations

from typing import Any, Dict, Iterable, List, NamedTuple, Tuple

from .._purposes import said_of
from ..scanning.dangers import judged
from ..scanning.known import HARMLESS
from ..scanning.report import shown
from ..scanning.severity import DANGER, UNKNOWN
from ..scanning.words import Word
from .nodes import IMPORT, ORDER, Node

MOST = 100
"""The most names that are listed."""
HIDDEN = ("extension", "find_class")
"""Events that import a name which the pickle doesn't show."""
_LONGEST = 256


class Name(NamedTuple):
    """A name that the pickle imports, and what is known of it."""

    name: str
    severity: str
    why: str

    @property
    def line(self) -> str:
        """What is known of it."""
        word = Word.DANGEROUS.value if self.severity == DANGER else self.severity
        return f"{word}: {self.why}" if self.why else word

    @property
    def note(self) -> str:
        """What stands beside a statement: of a harmless name, not what it is for."""
        return self.severity if self.severity == HARMLESS else self.line


def row_of(it: Node) -> Name:
    """What is known of the name that an event imports, or computes."""
    if it.kind != IMPORT:
        text = "a registered name" if it.kind == "extension" else "a computed name"
        return Name(text, DANGER, "The pickle hides what it imports.")
    module, name = it.items
    row = judged(module, name)
    dotted = shown(f"{module}.{name}", _LONGEST)
    if row is None:
        return Name(dotted, UNKNOWN, "Nobody has judged what a pickle can do with it.")
    is_harmless = it.severity == HARMLESS  # (here, whatever else it may do)
    return Name(dotted, it.severity, _purpose(module, name) if is_harmless else row.why)


def _purpose(module: str, name: str) -> str:
    """What a name of a ready-made list is for, as a refusal says it."""
    said = said_of((module, name))
    return f"It {said}." if said else ""


def names_in(events: Iterable[Node]) -> Tuple[List[Name], int]:
    """The names that events import, each once, the worst first, and how many more there are."""
    found: Dict[Tuple[Any, ...], Node] = {}
    for it in events:
        if it.kind == IMPORT:
            found.setdefault(tuple(it.items), it)
        elif it.kind in HIDDEN:
            found.setdefault((it.kind,), it)
    ranked = sorted(found.values(), key=lambda it: ORDER.index(it.severity))
    return list(map(row_of, ranked[:MOST])), max(0, len(ranked) - MOST)

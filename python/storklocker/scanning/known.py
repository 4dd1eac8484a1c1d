"""The table of names that have been judged, as `known.txt` has it."""

from __future__ import annotations

import functools
from typing import Dict, Iterator, List, NamedTuple, Optional, Set, Tuple

HARMLESS = "harmless"
_SAME, _ALIAS, _LEADS, _TEXT, _ENUM = "same", "alias", "leads", "text", "enum"
_HEAD, _WORDS = 1000, 32
"""The most characters and words of a name in which a pattern is looked for."""


class Row(NamedTuple):
    """What is known of a name."""

    severity: str
    """`danger`, `warning` or `harmless`."""
    why: str = ""
    """Why it does harm; of a harmless name, how that was judged: `read`, `run` or `derived`."""
    example: str = ""
    """An expression that does harm through a dangerous name."""


class Known:
    """The judged names. A look-up takes time linear in the length of the name.

    rows: the judgement of each name, and of each pattern such as `os.*`.
    texts, enums: the harmless names that may answer a text, and those of enums.
    """

    def __init__(self, text: str) -> None:
        self.rows: Dict[str, Row] = {}
        self.texts: Set[str] = set()
        self.enums: Set[str] = set()
        self._same: Dict[str, str] = {}
        self._led_to: List[str] = []
        self._under: Dict[str, Row] = {}
        self._begun: List[Tuple[str, Row]] = []
        for header, body in _sections(text):
            self._add(header, body)

    def _add(self, header: str, body: str) -> None:
        kind, _, why = header.partition("] ")
        kind = kind.rstrip("]")
        if kind in (_SAME, _ALIAS):
            for line in body.splitlines():
                name, same = line.split()[:2]
                self._same[name] = same
                self._led_to.append(name)
        elif kind in (_TEXT, _ENUM):
            (self.texts if kind == _TEXT else self.enums).update(body.split())
        elif kind == "danger":
            for name, example in _examples(body.splitlines()):
                self._put(name, Row(kind, why, example))
        else:
            severity = kind
            if kind == _LEADS:
                sink = self.judged(why)
                severity, why = "warning", f"It leads to {why}. {sink.why if sink else ''}".rstrip()
            self._put_all(body, Row(severity, why))

    def _put_all(self, body: str, row: Row) -> None:
        """Puts many names, as most of the table is, in less time than one by one."""
        names = body.split()
        added = dict.fromkeys(names, row)
        for name in added.keys() & self.rows.keys():
            del added[name]
        self.rows.update(added)
        if row.severity != HARMLESS:
            self._led_to += names
        for name in names if "*" in body else ():
            if name[-1] == "*":
                self._put_pattern(name, row)

    def _put(self, name: str, row: Row) -> None:
        self.rows.setdefault(name, row)
        self._led_to.append(name)
        if name[-1] == "*":
            self._put_pattern(name, row)

    def _put_pattern(self, name: str, row: Row) -> None:
        if name.endswith(".*"):
            self._under.setdefault(name[:-2], row)
        else:
            self._begun.append((name[:-1], row))

    @functools.cached_property
    def _fronts(self) -> Set[str]:
        """What the harmful names and the aliases are in."""
        return {front for name in self._led_to for front in _fronts_of(name)}

    def judged(self, name: str) -> Optional[Row]:
        """What is known of a dotted name."""
        row = self.rows.get(name)
        if row is not None or not name:
            return row
        head = name[:_HEAD]
        for begun, row in self._begun:
            if head.startswith(begun):
                return row
        end = len(head)
        for _ in range(min(_WORDS, head.count(".") + 1)):
            front = head[:end]
            if front in self._same:
                return self.judged(self._same[front] + name[end:])
            if front in self._under:
                return self._under[front]
            end = max(front.rfind("."), 0)
        return None

    def modules(self) -> Iterator[str]:
        """The modules for which `leads` is true, and what they are in; not all that are in these.
        """
        yield from self._fronts
        yield from self._same

    def leads(self, module: str) -> bool:
        """Whether a harmful name that is listed by itself is in a module, or in what is in it."""
        if module in self._fronts:
            return True
        for front in _fronts_of(f"{module}.", _WORDS):
            if front in self._same:
                return self.leads(self._same[front] + module[len(front) :])
        return False


def _fronts_of(name: str, most: int = -1) -> Iterator[str]:
    """What the name is in, from the module that is next to it on."""
    while "." in name and most:
        name, most = name.rpartition(".")[0], most - 1
        yield name


def _sections(text: str) -> Iterator[Tuple[str, str]]:
    """The headers of the table, each without its first bracket, and what is under it."""
    for section in f"\n{text}".split("\n[")[1:]:
        header, _, body = section.partition("\n")
        yield header, f"\n{body}".partition("\n#")[0].strip("\n")


def _examples(lines: List[str]) -> Iterator[Tuple[str, str]]:
    """The names of a section, each with its example, which may go on in indented lines."""
    name, example = "", ""
    for line in lines:
        if line.startswith(" "):
            example = f"{example} {line.strip()}".strip()
            continue
        if name:
            yield name, example
        name, _, example = line.partition("  ")
        example = example.strip()
    if name:
        yield name, example

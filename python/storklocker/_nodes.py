"""Reads as much of TOML as list files need, and keeps the line of each key. Imported when a list
file has a fault: the checker reads lists, and this finds the line that it refuses.
"""

from __future__ import annotations

import re
from typing import Any, Dict, List, NamedTuple, Tuple

_SHOWN = 60
"""The number of characters of a text that a hint shows."""

_BLANK = re.compile(r"(?:[ \t\r\n]|#[^\n]*)*")
_SPACE = re.compile(r"[ \t]*")
_END = re.compile(r"[ \t]*(?:#[^\n]*)?(?:\r?\n|\Z)")
_KEY = re.compile(r'[A-Za-z0-9_-]+|"(?:[^"\\\n]|\\.)*"|\'[^\'\n]*\'')
_LONG_TEXT = re.compile(r'"""(?:[^\\]|\\.)*?"{3,5}|\'\'\'.*?\'{3,5}', re.DOTALL)
_TEXT = re.compile(r'"(?:[^"\\\n]|\\.)*"|\'[^\'\n]*\'')
_ESCAPE = re.compile(r'\\(?:[btnfr"\\]|u[0-9A-Fa-f]{4}|U[0-9A-Fa-f]{8}|[ \t]*\r?\n)')
_WORD = re.compile(r"[^\s,\[\]{}#\"'=]+")


class Place(NamedTuple):
    """A place of a fault: its line, counted from 1, or 0, and what to write there."""

    line: int
    hint: str


class Stop(Exception):
    """The text is no TOML from here on."""

    def __init__(self, line: int, hint: str) -> None:
        super().__init__(line, hint)
        self.place = Place(line, hint)


class Node(NamedTuple):
    """A value, and the line of its key: a dict of nodes, a list, or something else."""

    line: int
    value: Any


class Reader:
    """Reads a TOML text into nodes."""

    def __init__(self, text: str) -> None:
        self.text, self.at = text, 0
        self._line, self._counted = 1, 0

    def document(self) -> Dict[str, Node]:
        """The top table."""
        top: Dict[str, Node] = {}
        table = top
        begun: Dict[Tuple[str, ...], int] = {}
        self.take(_BLANK)
        while self.at < len(self.text):
            line = self.line()
            if self.sees("["):
                self.at += 1
                path = self.keys("]")
                if begun.setdefault(tuple(path), line) != line:
                    first = begun[tuple(path)]
                    raise Stop(line, f"{shown(path[-1])} is there already, in line {first}")
                table = self.table_at(top, path, line)
            else:
                self.pair(table)
            end = _END.match(self.text, self.at)
            if end is None:
                raise self.stop("end the line here")
            self.take(_BLANK)
        return top

    def line(self) -> int:
        """The line that is read, counted from the last one that was asked for."""
        self._line += self.text.count("\n", self._counted, self.at)
        self._counted = self.at
        return self._line

    def stop(self, hint: str) -> Stop:
        return Stop(self.line(), hint)

    def sees(self, word: str) -> bool:
        return self.text.startswith(word, self.at)

    def take(self, pattern: re.Pattern[str]) -> str:
        """What the pattern matches here, which is passed over."""
        found = pattern.match(self.text, self.at)
        if found is None:
            return ""
        self.at = found.end()
        return found[0]

    def keys(self, end: str) -> List[str]:
        """The parts of a key, up to the character that ends it, which is passed over."""
        start, parts = self.at, []
        while True:
            self.take(_SPACE)
            part = self.take(_KEY)
            self.take(_SPACE)
            if not part or not (self.sees(".") or self.sees(end)):
                rest = self.text[start:].partition("\n")[0]
                raise self.stop(_unread(rest.partition(end)[0].strip(), end in rest, end))
            parts.append(_unquoted(part))
            self.at += 1
            if self.text[self.at - 1] == end:
                return parts

    def table_at(self, table: Dict[str, Node], parts: List[str], line: int) -> Dict[str, Node]:
        """The table below another one, made where it isn't there."""
        for part in parts:
            node = table.setdefault(part, Node(line, {}))
            if not isinstance(node.value, dict):
                raise Stop(line, f"{shown(part)} is there already, in line {node.line}")
            table = node.value
        return table

    def pair(self, table: Dict[str, Node]) -> None:
        """Reads a key with its value."""
        line = self.line()
        *front, last = self.keys("=")
        table = self.table_at(table, front, line)
        self.take(_SPACE)
        value = self.value()
        if last in table:
            more = ": write one array" if isinstance(value, list) else ""
            there = f"is there already, in line {table[last].line}"
            raise Stop(line, f"{shown(last)} {there}{more}")
        table[last] = Node(line, value)

    def value(self) -> Any:
        if self.sees("["):
            return self.array()
        if self.sees("{"):
            return self.inline()
        text = self.take(_LONG_TEXT) or self.take(_TEXT)
        if text:
            if text[0] == '"' and "\\" in _ESCAPE.sub("", text):
                raise self.stop("double each backslash, or write the text in single quotes")
            return Text(_unquoted(text))
        word = self.take(_WORD)
        if not word:
            raise self.stop("a value is missing, or a text isn't closed")
        if word in ("True", "False"):
            raise self.stop(f"write {word.lower()}")
        if not _is_value(word):
            raise self.stop(f'quote a text: "{short(word)}"')
        return _number(word)

    def array(self) -> List[Any]:
        line = self.line()
        values: List[Any] = []
        self.at += 1
        while True:
            self.take(_BLANK)
            if self.sees("]"):
                self.at += 1
                return values
            values.append(self.value())
            self.take(_BLANK)
            if self.at == len(self.text):
                raise Stop(line, "the array that begins here isn't closed")
            if self.sees(","):
                self.at += 1
            elif not self.sees("]"):
                raise self.stop("put a comma between the entries of an array, and ] at its end")

    def inline(self) -> Dict[str, Node]:
        table: Dict[str, Node] = {}
        self.at += 1
        self.take(_SPACE)
        while not self.sees("}"):
            self.pair(table)
            self.take(_SPACE)
            if self.sees(","):
                self.at += 1
                self.take(_SPACE)
            elif not self.sees("}"):
                raise self.stop("end an inline table with }")
        self.at += 1
        return table


class Text(str):
    """A text in quotes."""


def _unread(front: str, is_ended: bool, end: str) -> str:
    """What to write where no key can be read."""
    if re.match(r"version:? *\d", front):
        return "write version = 2"
    if not is_ended:
        what = "a table as [imports]" if end == "]" else 'a module as module = ["name"]'
        return f"write {what}"
    bare = front.strip("'\"")
    return f'quote it: "{short(bare)}"'


def _unquoted(part: str) -> str:
    """A key or a text without its quotes."""
    size = 3 if part[:3] in ('"""', "'''") and len(part) > 5 else 1
    return part[size:-size] if part[0] in "\"'" else part


def _is_value(word: str) -> bool:
    return word in ("true", "false", "inf", "nan") or word[0] in "+-0123456789"


def _number(word: str) -> Any:
    """An integer, or the word itself."""
    try:
        return int(word, 0)
    except ValueError:
        return word


def short(text: str) -> str:
    """A text for a hint: printable ASCII, and not long."""
    cut = text if len(text) <= _SHOWN else text[:_SHOWN] + ".."
    return ascii(cut)[1:-1]


def shown(key: str) -> str:
    return short(key) if re.fullmatch(r"[A-Za-z0-9_-]+", key) else f'"{short(key)}"'

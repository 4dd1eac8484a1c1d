"""Reads marshalled code for its names and constants. `marshal.loads` would crash on hostile bytes,
and knows its own Python's layout alone.
"""

from __future__ import annotations

import struct
from typing import Any, Dict, Iterator, List, NamedTuple, Tuple

from .brief import brief

_DEEPEST, _MOST, _SHOWN = 24, 50_000, 40
"""The most values inside one another, the most values, and the most that are shown."""
_REF = 0x80
_WORD = struct.Struct("<i")
_CONSTANTS: Dict[int, Any] = {
    ord("N"): None, ord("F"): False, ord("T"): True, ord("."): Ellipsis, ord("S"): StopIteration,
    ord("0"): None,
}


class NotRead(Exception):
    """These bytes aren't as a Python of 3.8 to 3.14 marshals code."""


class Code(NamedTuple):
    """What is known of code."""

    version: str
    name: str
    names: Tuple[str, ...]
    constants: Tuple[Any, ...]

    def lines(self, front: str = "") -> Iterator[str]:
        """Its names and constants, and those of the code in it."""
        names = ", ".join(self.names[:_SHOWN])
        plain = ", ".join(brief(it) for it in self.constants[:_SHOWN] if type(it) is not Code)
        yield f"{front}{self.name}, {self.version}: names {names}; constants {plain}"
        for it in self.constants[:_SHOWN]:
            if type(it) is Code and len(front) < _SHOWN:
                yield from it.lines(f"{front}    ")


def code_in(data: bytes) -> Code:
    """The code that these bytes are. Raises NotRead."""
    for layout in (_NEW, _OLD):
        try:
            found = _Marshalled(data, layout).value(0)
        except (NotRead, IndexError, struct.error, ValueError, UnicodeDecodeError):
            continue
        if type(found) is Code:
            return found
    raise NotRead


class _Layout(NamedTuple):
    """How Pythons marshal code: numbers, values, a number, and values."""

    version: str
    numbers: int
    values: str
    last: int


_PARTS = "code constants names locals"
_NEW = _Layout("code of Python 3.11 or later", 5, f"{_PARTS} kinds file name qualname", 2)
_OLD = _Layout("code of Python 3.8 to 3.10", 6, f"{_PARTS} free cells file name", 1)


class _Marshalled:
    """Marshalled bytes."""

    def __init__(self, data: bytes, layout: _Layout) -> None:
        self._data, self._layout, self._at, self._count = data, layout, 0, 0
        self._refs: List[Any] = []

    def _take(self, count: int) -> bytes:
        if count < 0 or self._at + count > len(self._data):
            raise NotRead
        self._at += count
        return self._data[self._at - count : self._at]

    def _number(self) -> int:
        found: int = _WORD.unpack(self._take(4))[0]
        return found

    def value(self, depth: int) -> Any:
        """The next value."""
        self._count += 1
        if depth > _DEEPEST or self._count > _MOST:
            raise NotRead
        code = self._take(1)[0]
        is_kept, kind = code & _REF, code & ~_REF
        place = len(self._refs)
        if is_kept:
            self._refs.append(None)
        found = self._value(kind, depth)
        if is_kept:
            self._refs[place] = found
        return found

    def _value(self, kind: int, depth: int) -> Any:
        letter = chr(kind)
        if kind in _CONSTANTS:
            return _CONSTANTS[kind]
        if letter == "r":
            return self._refs[self._number()]
        if letter == "c":
            return self._code(depth + 1)
        if letter == "i":
            return self._number()
        if letter == "l":
            return self._long()
        if letter in "gy":
            parts = struct.unpack(f"<{1 + (letter == 'y')}d", self._take(8 << (letter == "y")))
            return parts[0] if letter == "g" else complex(*parts)
        if letter in "stuaAzZ":
            return self._text(letter)
        if letter in "()[<>":
            return self._collected(letter, depth + 1)
        if letter == ":":
            return slice(*(self.value(depth + 1) for _ in range(3)))
        raise NotRead

    def _text(self, letter: str) -> Any:
        raw = self._take(self._take(1)[0] if letter in "zZ" else self._number())
        if letter == "s":
            return raw
        return raw.decode("utf-8", "surrogatepass") if letter in "tu" else raw.decode("latin-1")

    def _collected(self, letter: str, depth: int) -> Tuple[Any, ...]:
        count = self._take(1)[0] if letter == ")" else self._number()
        if count > len(self._data):
            raise NotRead
        return tuple(self.value(depth) for _ in range(count))

    def _long(self) -> int:
        count, found = self._number(), 0
        for place in range(abs(count)):
            found |= int.from_bytes(self._take(2), "little") << 15 * place
        return -found if count < 0 else found

    def _code(self, depth: int) -> Code:
        for _ in range(self._layout.numbers):
            self._number()
        parts = {it: self.value(depth) for it in self._layout.values.split()}
        self._number()
        for _ in range(self._layout.last):
            self.value(depth)
        names, constants = parts["names"], parts["constants"]
        if type(parts["code"]) is not bytes or type(names) is not tuple:
            raise NotRead
        if not all(type(it) is str for it in names) or type(constants) is not tuple:
            raise NotRead
        name = parts["name"] if type(parts["name"]) is str else "?"
        return Code(self._layout.version, name, names, constants)

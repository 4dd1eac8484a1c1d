"""The arguments of a pickle's instructions, as the most lenient of CPython's readers takes them."""

from __future__ import annotations

import pickletools
import re
from typing import Dict, Optional

from .source import BLOCK, Source

_LINE = 1 << 25
_PART = re.compile(r"[\w-]+")
_NUMERALS = b" \t\r\f\v0123456789abcdefoxlABCDEFOXL_.+-"
_WORDS = frozenset((b"nan", b"inf", b"infinity"))
_DIGITS = 4000
"""Newer Pythons take no number of many more digits."""
_ESCAPED = re.compile(rb"\\(?:x([0-9a-fA-F]{2})|([0-7]{1,3})|(.))", re.DOTALL)
_LETTERS = dict(zip(b"abfnrtv\\'\"\n", (*b"\a\b\f\n\r\t\v\\'\"", None)))
SIZES = {-2: 1, -3: 4, -4: 4, -5: 8}
"""The length of a count, by the constant that `pickletools` uses for it."""


def _lengths() -> Dict[int, int]:
    """The length of each opcode's argument, by code, as `pickletools` gives it."""
    return {ord(it.code): 0 if it.arg is None else it.arg.n for it in pickletools.opcodes}


LENGTHS = _lengths()


_FEW = 1 << 10
"""So many bytes are read first, because most walks end soon."""


class Stop(Exception):
    """Every reader stops."""


class Lost(Exception):
    """Readers go on, but it isn't known where, or with what."""


class Spelled:
    """The bytes of a pickle, from a place on. The methods that take some raise Stop where there are
    fewer.
    """

    def __init__(self, source: Source, at: int) -> None:
        self.source, self.at = source, at
        self._data, self._base, self._size = b"", at, _FEW

    def take(self, count: int) -> bytes:
        """The next bytes, or fewer at the end."""
        start = self.at - self._base
        if not 0 <= start <= len(self._data) - count:
            self._data, self._base = self.source.read(self.at, max(self._size, count)), self.at
            self._size, start = min(4 * self._size, BLOCK), 0
        self.at += count
        return self._data[start : start + count]

    def exactly(self, count: int) -> bytes:
        """So many bytes."""
        found = self.take(count)
        if len(found) < count:
            raise Stop
        return found

    def skip(self, count: int) -> None:
        """Passes bytes."""
        self.at += count
        if self.at > self.source.size:
            raise Stop

    def counted(self, width: int, is_signed: bool = False) -> int:
        """The length of a payload, which is there."""
        count = int.from_bytes(self.exactly(width), "little", signed=is_signed)
        if count < 0 or count > self.source.size - self.at:
            raise Stop
        return count

    def line(self, may_be_last: bool = False) -> bytes:
        """The next line without its end. The reader in Python takes the last byte off, whatever it
        is; what follows must be there, unless it may be the last line.
        """
        start = self.at - self._base
        end = self._data.find(b"\n", start) if 0 <= start < len(self._data) else -1
        if end >= 0:
            self.at = self._base + end + 1
            return self._data[start:end]
        length = 0
        while length <= _LINE:
            block = self.source.read(self.at + length, BLOCK)
            end = block.find(b"\n")
            if end >= 0 or not block:
                line = self.source.read(self.at, length + max(end, 0))
                self.at += len(line) + (end >= 0)
                if end < 0 and not may_be_last:
                    raise Stop
                return line if end >= 0 else line[:-1]
            length += len(block)
        raise Lost


def is_module(name: Optional[str]) -> bool:
    """Whether a module may have this name, as a text's first line hardly ever can. Python 3.11 and
    later find modules such as `os` by what stands in front of a NUL.
    """
    parts = [] if name is None else name.partition("\0")[0].split(".")
    return all(it.isidentifier() or _PART.fullmatch(it) for it in parts)


def number_of(line: bytes) -> int:
    """A memo number of protocol 0."""
    text = line.partition(b"\0")[0]
    try:
        number = int(text)
    except ValueError:
        if len(text) > _DIGITS and is_number(text):
            raise Lost from None
        raise Stop from None
    if number < 0:
        raise Stop
    return number


def decoded(raw: bytes, coding: str, errors: str = "strict") -> str:
    try:
        return raw.decode(coding, errors)
    except UnicodeDecodeError:
        raise Stop from None


def encoded(text: str) -> bytes:
    return text.encode("utf-8", "surrogatepass")


def unescaped(raw: bytes) -> bytes:
    """What a reader makes of the escapes of a STRING."""
    return _ESCAPED.sub(_meant, raw) if b"\\" in raw else raw


def _meant(found: "re.Match[bytes]") -> bytes:
    number, octal, letter = found.groups()
    if letter is None:
        return bytes([(int(number, 16) if number else int(octal, 8)) & 255])
    if letter[0] not in _LETTERS:
        return found.group()
    meant = _LETTERS[letter[0]]
    return b"" if meant is None else bytes([meant])


def is_number(text: bytes) -> bool:
    """Whether a reader may accept the text as a number."""
    return not text.translate(None, _NUMERALS) or text.strip().lower().lstrip(b"+-") in _WORDS

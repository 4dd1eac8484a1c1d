"""Follows what may be a pickle from inside it up to an import, where its beginning can't be seen.

A pickle without PROTO may begin with anything, and the texts by which STACK_GLOBAL imports may come
from the memo or from deep in the stack. So each text by which something harmful can be imported
begins a trail. What the memo and the stack held in front of it isn't known: it may be anything.
Trails that meet go on as one, so that each instruction is passed once.
"""

from __future__ import annotations

import heapq
import re
from typing import (
    Dict, Iterable, Iterator, List, NamedTuple, Optional, Pattern, Sequence, Set, Tuple
)

from .budget import Budget
from .dangers import is_harmful, is_suspect, suspect_heads
from .patterns import ANY, LETTER, NUL, Front, class_of
from .source import BLOCK, Source
from .spelled import LENGTHS, SIZES, is_number

_WORD, _LINE = rb"([A-Za-z_]\w{0,30})(\.)?", rb"(\w{0,30})(?:%b|([.\\\0]))"


def _counted(code: bytes, length: Sequence[bytes]) -> bytes:
    """A regular expression of an instruction, its length, and the first word."""
    return b"%b(?=%b%b)" % (code, b"".join(map(class_of, length)), _WORD)


_FEW = bytes(range(0x40))
_COUNTED: Dict[bytes, Tuple[bytes, ...]] = {
    b"\x8c": (ANY,),
    b"X": (ANY, ANY, ANY, _FEW),
    b"\x8d": (ANY,) * 4 + (NUL,) * 4,
    b"U": (ANY,),
    b"T": (ANY, ANY, ANY, _FEW),
}
"""The instructions that push a text, and the bytes of its length."""
_TEXTS: Dict[int, Tuple[Tuple[Pattern[bytes], int], ...]] = {
    **{
        ord(code): ((re.compile(_counted(code, length), re.DOTALL), len(length)),)
        for code, length in _COUNTED.items()
    },
    ord("V"): ((re.compile(rb"V(?=%b)" % _LINE % rb"\n"), 0),),
    ord("S"): (
        (re.compile(rb"S(?=[ \t]*'%b)" % _LINE % rb"'"), 0),
        (re.compile(rb'S(?=[ \t]*"%b)' % _LINE % rb'"'), 0),
    ),
}
"""What pushes a text: its first word, and what shows that more follows; and the width of the text's
length, if it has one.
"""
TEXT_FRONTS: Tuple[Front, ...] = (
    *((code, *length, LETTER) for code, length in _COUNTED.items()),
    (b"V", LETTER + b"0123456789.\\\0"),
    (b"S", b" \t'\""),
)
"""How these begin."""
_LONGEST = 1 << 10
"""The most bytes of a name with its escapes."""
_MOST = 100
"""The most texts of a trail that are told apart."""
_TICK, _BEGUN = 1 << 8, 4
"""After so many instructions the steps are counted; and those of the beginning of a trail."""
_STOPPED, _HARM = -1, -2
"""Where a trail ends: where every reader stops, and at an import that may be harmful."""

_PUSHES, _NUMBERS, _PAIRS = frozenset(b"\x8cX\x8dUTVS"), frozenset(b"IFLpg"), frozenset(b"ci")
_STACK_GLOBAL, _STOP = 0x93, ord(".")
_ESCAPED = re.compile(rb"\\(?:x([0-9a-fA-F]{2})|([0-7]{1,3}))")
_KEPT = re.compile(rb"(?:\x94|[\x80q].|r.{4}|p[0-9]+\n|\x95.{8})*", re.DOTALL)
"""Instructions that leave the stack as it is."""


def _plain() -> bytes:
    """A pattern of instructions of fixed length that neither import nor end a pickle."""
    codes: Dict[int, bytes] = {}
    for code, length in LENGTHS.items():
        if length >= 0 and code not in (_STACK_GLOBAL, _STOP):
            codes[length] = codes.get(length, b"") + re.escape(bytes([code]))
    return b"|".join(b"[%b].{%d}" % (found, length) for length, found in codes.items())


_PLAIN = re.compile(b"(?:%b)+" % _plain(), re.DOTALL)


def texts_at(block: bytes, places: Iterable[int]) -> Iterator[int]:
    """At which of these places a text is pushed, perhaps, that begins as the name of something
    harmful does.
    """
    heads = suspect_heads()
    for at in places:
        for begun, width in _TEXTS[block[at]]:
            found = begun.match(block, at)
            if found is None:
                continue
            word, more = found.groups()
            if width:
                end = found.end()
                word = word[: int.from_bytes(block[end : end + width], "little")]
            if more or word in heads:
                yield at


class _Text(NamedTuple):
    """An instruction that pushes a text: where it begins and ends."""

    at: int
    end: int


class Trail:
    """What is known of the pickle at one of its instructions.

    starts: where it may have begun, at most `_MOST` places.
    seen: the texts by which something harmful can be imported, and one more at most than `_MOST`.
    texts: the last two texts, in their order.
    """

    def __init__(self, start: int, text: str) -> None:
        self.starts: List[int] = [start]
        self.seen: Set[str] = {text}
        self.texts: Tuple[_Text, ...] = ()

    def join(self, other: Trail) -> None:
        """Another trail leads here too."""
        if len(self.starts) < _MOST or other.starts[0] < self.starts[-1]:
            self.starts = sorted({*self.starts, *other.starts})[:_MOST]
        if len(self.seen) <= _MOST:
            self.seen |= other.seen
        if self.texts != other.texts:
            self.texts = ()


class Trails:
    """The trails through a source, each at the first of its instructions that isn't passed."""

    def __init__(self, source: Source, budget: Budget) -> None:
        self._source, self._budget = source, budget
        self._trails: Dict[int, Trail] = {}
        self._places: List[int] = []
        self._data, self._base = b"", 0
        self._line_at, self._line_end = 0, -1
        self._steps = 0

    @property
    def is_any(self) -> bool:
        """Whether one is followed."""
        return bool(self._places)

    def is_at(self, at: int) -> bool:
        """Whether a trail gets to a place."""
        return at in self._trails

    def begin(self, at: int) -> None:
        """Begins a trail at a text, if something harmful can be imported by it."""
        text, end = self._text(at)
        self._budget.spend(_BEGUN)
        if text is not None and end and is_suspect(text):
            self._put(at, Trail(at, text))

    def followed(self, limit: int) -> Iterator[Trail]:
        """Follows them to a place. Yields, and ends, those that may get to a harmful import."""
        while self._places and self._places[0] < limit:
            at = heapq.heappop(self._places)
            trail = self._trails.pop(at)
            bound = min(limit, self._places[0]) if self._places else limit
            while 0 <= at < bound:
                at = self._passed(at, bound, trail)
            if at >= 0:
                self._put(at, trail)
            elif at == _HARM:
                yield trail

    def _put(self, at: int, trail: Trail) -> None:
        if at in self._trails:
            self._trails[at].join(trail)
        else:
            self._trails[at] = trail
            heapq.heappush(self._places, at)

    def _passed(self, at: int, bound: int, trail: Trail) -> int:
        """Passes instructions, of those that are plain as many as begin in front of a bound.
        Returns where the next one is, or how the trail ends.
        """
        self._steps += 1
        if self._steps % _TICK == 0:
            self._budget.spend(4 * _TICK)
        start = self._held(at, 1)
        found = _PLAIN.match(self._data, start, min(len(self._data), bound - self._base))
        if found:
            return self._base + found.end()
        code = self._code(at)
        length = LENGTHS.get(code)
        if length is None or code == _STOP:
            return _STOPPED
        if code == _STACK_GLOBAL:
            return _HARM if self._may_harm(at, trail) else at + 1
        if length >= 0:
            return at + 1 + length
        if code in _PUSHES:
            end = self._text_end(at)
            trail.texts = (*trail.texts[-1:], _Text(at, end))
            return end or _STOPPED
        return (self._line_passed(at) if length == -1 else self._payload(at)[1]) or _STOPPED

    def _may_harm(self, at: int, trail: Trail) -> bool:
        """Whether what STACK_GLOBAL imports at a place may be harmful."""
        module, name = self._operands(at, trail)
        if module is None and len(trail.seen) > _MOST:
            return True
        modules = trail.seen if module is None else {module}
        if name is None:
            return any(map(is_suspect, modules))
        return any(is_harmful(module, name) for module in modules)

    def _operands(self, at: int, trail: Trail) -> Tuple[Optional[str], Optional[str]]:
        """The texts on the stack, where they are known."""
        found: List[Optional[str]] = []
        for text in reversed(trail.texts):
            if not _KEPT.fullmatch(self._source.read(text.end, min(at - text.end, _LONGEST))):
                break
            found.append(self._text(text.at)[0])
            at = text.at
        name, module = (*found, None, None)[:2]
        return module, name

    def _text(self, at: int) -> Tuple[Optional[str], int]:
        """The text that an instruction pushes, if it is short, and where the next one is; 0 if
        readers stop.
        """
        code = self._code(at)
        begin, end = self._payload(at) if LENGTHS[code] != -1 else (at + 1, self._line(at + 1))
        size = end - begin - (LENGTHS[code] == -1)
        if not end or size > _LONGEST and LENGTHS[code] == -1:
            return None, end
        raw = self._read(begin, min(size, _LONGEST))
        front, nul, _ = raw.partition(b"\0")
        try:
            text = _decoded(code, raw if size == len(raw) else front)
        except ValueError:
            return None, 0
        return (text if nul or size <= _LONGEST else None), end

    def _text_end(self, at: int) -> int:
        """Where the instruction ends that pushes a text."""
        code = self._code(at)
        return self._payload(at)[1] if LENGTHS[code] != -1 else self._line(at + 1)

    def _payload(self, at: int) -> Tuple[int, int]:
        """Where the payload of an instruction is, and its end; 0 if the source has less."""
        length = LENGTHS[self._code(at)]
        begin = at + 1 + SIZES[length]
        count = int.from_bytes(self._read(at + 1, SIZES[length]), "little", signed=length == -3)
        end = begin + count
        return begin, end if begin <= end <= self._source.size else 0

    def _line_passed(self, at: int) -> int:
        """Where the instruction with lines ends; 0 if readers stop."""
        code, end = self._code(at), self._line(at + 1)
        if code in _NUMBERS and end:
            return end if is_number(self._read(at + 1, min(end - at - 2, _LONGEST))) else 0
        return self._line(end) if end and code in _PAIRS else end

    def _line(self, at: int) -> int:
        """Where the line ends that begins at a place; 0 if it doesn't end."""
        if not self._line_at <= at < self._line_end:
            self._line_at, self._line_end, end = at, self._source.size + 1, at
            while end < self._source.size:
                block = self._source.read(end, BLOCK)
                found = block.find(b"\n")
                if found >= 0:
                    self._line_end = end + found + 1
                    break
                end += len(block)
        return self._line_end if self._line_end <= self._source.size else 0

    def _code(self, at: int) -> int:
        """The code of an instruction; that of STOP at the end."""
        return (self._read(at, 1) or b".")[0]

    def _read(self, at: int, count: int) -> bytes:
        start = self._held(at, count)
        return self._data[start : start + count]

    def _held(self, at: int, count: int) -> int:
        """Where bytes are in the data at hand, to which they are brought."""
        start = at - self._base
        if not 0 <= start <= len(self._data) - count:
            self._data, self._base, start = self._source.read(at, BLOCK), at, 0
        return start


def _decoded(code: int, raw: bytes) -> str:
    """The text that a reader makes of an argument. Raises ValueError if it makes none."""
    if code == ord("V"):
        return raw.decode("raw-unicode-escape")
    if code == ord("S"):
        raw = raw.strip()
        if len(raw) < 2 or raw[0] != raw[-1] or raw[:1] not in b"'\"":
            raise ValueError("no quotes")
        return _ESCAPED.sub(_unescaped, raw[1:-1]).decode("latin-1")
    if code in b"UT":
        return raw.decode("latin-1")
    return raw.decode("utf-8", "surrogatepass")


def _unescaped(found: re.Match[bytes]) -> bytes:
    """What an escape by a number stands for."""
    number = int(found.group(1), 16) if found.group(1) else int(found.group(2), 8)
    return bytes([number & 255])

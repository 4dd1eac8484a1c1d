"""What the most lenient of CPython's readers imports, by following a pickle without running it.

The readers in C and in Python differ, and the checker is stricter than both: it refuses a number
such as `1_0`, a text of 20 MB, a BUILD of nothing. The one in Python takes a last line without a
line feed, and imports for an INST before it looks for its mark. So this follows the instructions as
far as either goes, and takes them to stop only where both do. Of a value it knows whether it is a
text, which may be a name, and else only whether it may be one.
"""

from __future__ import annotations

import functools
import pickletools
from typing import Any, Callable, Dict, List, NamedTuple, Optional, Tuple, Type

from .dangers import is_found_here
from .source import Source
from .spelled import (
    LENGTHS, Lost, Spelled, Stop, decoded, encoded, is_module, is_number, number_of, unescaped
)

STEPS = 100_000
"""The most instructions that are followed."""
_LONGEST = 1000
"""Longer texts are names that nobody shows."""
_ASCII = bytes(range(128))
_STOP = ord(".")

Names = Tuple[Optional[bytes], Optional[bytes]]
UNKNOWN: Names = (None, None)
"""A name that isn't shown."""

ANY, OTHER = object(), object()
"""A value that may be a text, and one that is none."""


class Followed(NamedTuple):
    """What a reader gets to."""

    names: Dict[Names, None]
    """What it imports, each once."""
    is_ended: bool
    """Whether it may get to STOP."""
    end: int
    """Where it stops, or behind STOP."""
    is_complete: bool
    """Whether these are all imports; otherwise it goes on, or reads other bytes than are shown."""
    steps: int
    """The number of instructions."""
    has_numbered: bool = False
    """Whether it may import what is registered under a number, without which it stops there."""
    is_misread: bool = False
    """Whether the reader in C reads other bytes than are shown, from a frame's end on."""

    def is_reached_in(self, size: int) -> bool:
        """Whether a reader may get to an import or to STOP in so many bytes. Numbers that look like
        a pickle with a registered name don't end with it.
        """
        is_whole = self.is_ended and (not self.has_numbered or self.end == size)
        return bool(self.names) or is_whole or not self.is_complete


class Walk(Spelled):
    """Follows a pickle. Who looks for more in it derives a class, with other `acts`."""

    acts: Dict[int, Callable[[Any], object]]
    """What each instruction does, by its code."""
    most = STEPS

    def __init__(self, source: Source, at: int, is_open: bool = False) -> None:
        super().__init__(source, at)
        self._is_open = is_open
        self._stack: List[Any] = []
        self._below: List[List[Any]] = []
        """The stacks below the marks."""
        self._memo: Dict[int, Any] = {}
        self._frame = -1
        self.names: Dict[Names, None] = {}
        self.steps = self.begun = 0
        """The number of instructions, and where the last one begins."""
        self.has_numbered = self.is_misread = False

    def through(self) -> Tuple[bool, bool]:
        """Follows it. Returns whether it gets to STOP, and whether no reader goes on."""
        try:
            self._run()
        except Lost:
            return False, False
        except (Stop, IndexError):
            return False, True
        return True, True

    def again(self) -> Tuple[bool, bool]:
        """Follows the next pickle, as an Unpickler does that keeps its memo."""
        self._stack, self._below, self._frame = [], [], -1
        return self.through()

    def _run(self) -> None:
        """Follows it up to STOP."""
        acts, most = self.acts, self.most
        while True:
            start = self.begun = self.at
            place = start - self._base
            if 0 <= place < len(self._data):  # (as nearly always: a call would take longer)
                code, self.at = self._data[place], start + 1
            else:
                code = next(iter(self.take(1)), -1)
            if code not in LENGTHS:
                raise Stop
            self.steps += 1
            if self.steps > most:
                raise Lost
            frame = self._frame
            try:
                acts[code](self)
            finally:  # (the reader in C drops the front of what crosses a frame's end)
                self.is_misread |= start < frame < self.at
            if code == _STOP:
                return

    # ---- the stack

    def _pop(self) -> Any:
        if self._stack or not self._is_open or self._below:
            return self._stack.pop()
        return ANY

    def top(self) -> Any:
        if self._stack or not self._is_open or self._below:
            return self._stack[-1]
        self._stack.append(ANY)
        return ANY

    def to_mark(self) -> None:
        """Drops what is above the last mark."""
        if self._below:
            self._stack = self._below.pop()
        elif self._is_open:
            self._stack = []
        else:
            raise Stop

    def push(self, value: Any = OTHER) -> None:
        self._stack.append(value)

    # ---- imports

    def _import(self, module: bytes, name: bytes) -> None:
        if not is_module(module.decode("utf-8", "replace")):
            raise Stop
        self.names[module, name] = None
        if not name:
            raise Stop  # no attribute has an empty name

    def by_lines(self, coding: str = "utf-8") -> None:
        """GLOBAL. Either line may be the last one."""
        begin = self.at
        try:
            module, name = self.line(True), self.line(True)
        except Lost:
            word, nul, _ = self.source.read(begin, _LONGEST).partition(b"\0")
            if nul and not is_found_here(word.decode("utf-8", "replace")):
                raise Stop from None  # (no other module is found by what is in front of a NUL)
            raise
        for text in (module, name):
            decoded(text, coding)
        self._import(module, name)
        self.push(ANY)

    def instance(self) -> None:
        """INST, for which the reader in Python imports first."""
        self.by_lines("ascii")
        self.to_mark()
        self.push(ANY)

    def from_stack(self) -> None:
        """STACK_GLOBAL."""
        name, module = self._pop(), self._pop()
        if name is OTHER or module is OTHER:
            raise Stop
        if name is ANY or module is ANY:
            if not self.has_numbered:
                self.names[UNKNOWN] = None
        else:
            self._import(encoded(module), encoded(name))
        self.push(ANY)

    def registered(self, width: int) -> None:
        """EXT1, EXT2 and EXT4, which import what is registered under a number."""
        if int.from_bytes(self.exactly(width), "little", signed=width == 4) <= 0:
            raise Stop
        self.has_numbered = True
        self.push(ANY)

    # ---- instructions with an argument

    def text(self, width: int) -> None:
        count = self.counted(width)
        if count > _LONGEST:
            self.skip(count)
            self.push(ANY)
        else:
            self.push(decoded(self.take(count), "utf-8", "surrogatepass"))

    def old_text(self, width: int) -> None:
        count = self.counted(width, width == 4)
        if count > _LONGEST:
            self.skip(count)
            self.push(ANY)
        else:
            self.push(self.take(count).decode("latin-1"))

    def quoted(self) -> None:
        """STRING."""
        line = self.line().strip()
        if len(line) < 2 or line[0] != line[-1] or line[:1] not in b"'\"":
            raise Stop
        is_long = len(line) > 4 * _LONGEST
        self.push(ANY if is_long else unescaped(line[1:-1]).decode("latin-1"))

    def unicode(self) -> None:
        line = self.line()
        is_long = len(line) > 4 * _LONGEST
        self.push(ANY if is_long else decoded(line, "raw-unicode-escape"))

    def payload(self, width: int, is_signed: bool = False) -> None:
        self.skip(self.counted(width, is_signed))
        self.push()

    def fixed(self, count: int) -> None:
        self.exactly(count)
        self.push()

    def number(self) -> None:
        if not is_number(self.line().partition(b"\0")[0]):
            raise Stop
        self.push()

    def frame(self) -> None:
        end = self.at + 8 + int.from_bytes(self.exactly(8), "little")
        if end > self.source.size:
            return  # the reader in Python says nothing of what it lacks
        self.is_misread |= self.at < self._frame != end
        self._frame = end

    def persistent(self) -> None:
        if self.line().translate(None, _ASCII):
            raise Stop
        self.push(ANY)

    def protocol(self) -> None:
        if self.exactly(1) > b"\5":
            raise Stop

    def _memo_number(self, width: int) -> int:
        return int.from_bytes(self.exactly(width), "little") if width else number_of(self.line())

    def put(self, width: int) -> None:
        self._keep(self._memo_number(width))

    def memoize(self) -> None:
        self._keep(len(self._memo))

    def _keep(self, number: int) -> None:
        value = self.top()
        if not self._is_open:  # (or else what is in the memo isn't known)
            self._memo[number] = value

    def get(self, width: int) -> None:
        number = self._memo_number(width)
        if self._is_open:
            self.push(ANY)
        elif number in self._memo:
            self.push(self._memo[number])
        else:
            raise Stop

    # ---- instructions without

    def next_buffer(self) -> None:
        """NEXT_BUFFER, which takes what the reader was given beside the pickle."""
        self.push(ANY)

    def read_only(self) -> None:
        """READONLY_BUFFER."""
        self.top()

    def identified(self) -> None:
        """BINPERSID."""
        self.replace(1)

    def duplicate(self) -> None:
        self.push(self.top())

    def take_top(self) -> None:
        self._pop()

    def pop(self) -> None:
        if self._stack or not self._below:
            self._pop()
        else:
            self.to_mark()

    def mark(self) -> None:
        self._below.append(self._stack)
        self._stack = []

    def collect(self, is_in_front: bool, value: Any = OTHER) -> None:
        """Takes what is above the mark, and puts it into what is in front of it, or makes a value.
        """
        self.to_mark()
        if is_in_front:
            self.top()
        else:
            self.push(value)

    def instance_of(self) -> None:
        """OBJ."""
        if not self._stack and not (self._is_open and not self._below):
            raise Stop
        self.collect(False, ANY)

    def replace(self, count: int, value: Any = ANY) -> None:
        """Takes so many values, and pushes one."""
        for _ in range(count):
            self._pop()
        self.push(value)

    def put_in(self, count: int) -> None:
        """Takes so many values for the one in front of them."""
        for _ in range(count):
            self._pop()
        self.top()


def acts_of(kind: Type[Walk]) -> Dict[int, Callable[[Any], object]]:
    """What each instruction does for such a walk, by its code."""
    found: Dict[str, Callable[[Any], object]] = {
        "MARK": kind.mark, "POP": kind.pop, "POP_MARK": kind.to_mark, "STOP": kind.take_top,
        "GLOBAL": kind.by_lines, "INST": kind.instance, "STACK_GLOBAL": kind.from_stack,
        "OBJ": kind.instance_of, "STRING": kind.quoted, "UNICODE": kind.unicode,
        "PERSID": kind.persistent, "FRAME": kind.frame, "PROTO": kind.protocol,
        "MEMOIZE": kind.memoize, "DUP": kind.duplicate, "READONLY_BUFFER": kind.read_only,
        "NEXT_BUFFER": kind.next_buffer, "BINPERSID": kind.identified,
    }
    for names, act, numbers in _WITH_NUMBERS:
        for name, words in zip(names.split(), numbers):
            found[name] = functools.partial(_called, getattr(kind, act.__name__), words)
    found.update(dict.fromkeys("INT LONG FLOAT".split(), kind.number))
    return {ord(it.code): found[it.name] for it in pickletools.opcodes}


def _called(act: Callable[..., object], words: Tuple[Any, ...], walk: Walk) -> None:
    act(walk, *words)


_NONE, _ONE, _TWO, _THREE, _FOUR, _EIGHT = ((it,) for it in (0, 1, 2, 3, 4, 8))
_WITH_NUMBERS: Tuple[Tuple[str, Callable[..., object], Tuple[Tuple[Any, ...], ...]], ...] = (
    ("EXT1 EXT2 EXT4", Walk.registered, (_ONE, _TWO, _FOUR)),
    ("PUT BINPUT LONG_BINPUT", Walk.put, (_NONE, _ONE, _FOUR)),
    ("GET BINGET LONG_BINGET", Walk.get, (_NONE, _ONE, _FOUR)),
    ("SHORT_BINUNICODE BINUNICODE BINUNICODE8", Walk.text, (_ONE, _FOUR, _EIGHT)),
    ("SHORT_BINSTRING BINSTRING", Walk.old_text, (_ONE, _FOUR)),
    ("SHORT_BINBYTES BINBYTES BINBYTES8 BYTEARRAY8", Walk.payload, (_ONE, _FOUR, _EIGHT, _EIGHT)),
    ("LONG1 LONG4", Walk.payload, (_ONE, (4, True))),
    ("BININT BININT1 BININT2 BINFLOAT", Walk.fixed, (_FOUR, _ONE, _TWO, _EIGHT)),
    ("NONE NEWTRUE NEWFALSE EMPTY_LIST EMPTY_DICT EMPTY_SET EMPTY_TUPLE", Walk.push, ((),) * 7),
    ("TUPLE1 TUPLE2 TUPLE3", Walk.replace, ((1, OTHER), (2, OTHER), (3, OTHER))),
    ("REDUCE NEWOBJ NEWOBJ_EX", Walk.replace, (_TWO, _TWO, _THREE)),
    ("APPEND BUILD SETITEM", Walk.put_in, (_ONE, _ONE, _TWO)),
    ("APPENDS SETITEMS ADDITEMS", Walk.collect, ((True,),) * 3),
    ("LIST DICT TUPLE FROZENSET", Walk.collect, ((False,),) * 4),
)
"""Instructions that differ by the numbers that their acts take."""

Walk.acts = acts_of(Walk)

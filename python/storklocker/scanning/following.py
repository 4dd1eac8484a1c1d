"""Follows the instructions of a pickle without running them.

What is pushed is a number, a text, a tuple, a dict, a name that is imported, or what that makes of
arguments; of all else nothing is known. Who looks for something in a pickle derives a class.
"""

from __future__ import annotations

import pickletools
from typing import Any, Callable, Dict, List, NamedTuple, Optional, Tuple

from .._storklocker import followed
from .budget import LOOKED_AT
from .source import BLOCK, Source

_MOST_KEYS, _STEP = 128, 1 << 14
_LONGEST = 1 << 12
"""Longer texts and numbers are nothing that is looked for."""
ANY, _MARK = object(), object()
_NEVER = frozenset(
    "EXT1 EXT2 EXT4 NEXT_BUFFER READONLY_BUFFER INST OBJ PERSID BINPERSID".split()
)
_OPCODES = {ord(it.code): it for it in pickletools.opcodes}
_VALUES = {"NONE": None, "NEWTRUE": True, "NEWFALSE": False, "EMPTY_TUPLE": ()}


class NotFollowed(Exception):
    """The pickle isn't as the program writes it whose files these are."""


class Global(NamedTuple):
    """A name that is imported."""

    pair: Tuple[str, str]


class Made:
    """What a class or a function makes of arguments, and the state that it is given."""

    def __init__(self, pair: Tuple[str, str], words: Any) -> None:
        self.pair, self.words, self.is_built = pair, words, False
        self.state: Any = None
        self.judged: Any = None
        """What a derived class has found out about it."""


class Dict_:
    """A dict with texts as keys; None if it has others, or very many."""

    def __init__(self) -> None:
        self.items: Optional[Dict[str, Any]] = {}

    def put(self, items: List[Any]) -> None:
        for key, value in zip(items[::2], items[1::2]):
            if self.items is None or not isinstance(key, str) or len(self.items) > _MOST_KEYS:
                self.items = None
                return
            self.items[key] = value


class Follower:
    """Follows the first pickle of a source. `tick` is called with a number of steps now and then.
    """

    def __init__(self, source: Source, tick: Callable[[int], object]) -> None:
        self._source, self._tick = source, tick
        self._stack: List[Any] = []
        self._memo: Dict[int, Any] = {}
        self._at = self._frame = 0
        self._data, self._base = b"", 0

    def _follow(self) -> None:
        """Follows it up to STOP. Raises NotFollowed."""
        ticked = steps = 0
        try:
            while self._is_followed():
                self._hasten()
                steps += 3
                if self._at - ticked + steps >= _STEP:
                    self._tick(steps + (self._at - ticked) // LOOKED_AT)
                    ticked, steps = self._at, 0
        except (IndexError, KeyError, ValueError) as error:
            raise NotFollowed(f"{type(error).__name__} at {self._at}") from None

    # ---- what a derived class judges

    def _hide(self, values: List[Any]) -> None:
        """Values go where they are followed no more."""

    def _judge_global(self, module: str, name: str) -> None:
        """A name is imported."""

    def _reduce(self, function: Any, words: Any) -> Any:
        """What the call of a function returns."""
        return ANY

    def _new(self, made_by: Any, words: Any) -> Any:
        """What a class makes without a call."""
        return ANY

    def _build(self, made: Any, state: Any) -> None:
        """An object is given a state."""

    # ---- the instructions

    def _hasten(self) -> None:
        """Follows the next instructions, as `_is_followed` does, as far as they are plain and at
        hand.
        """
        start = self._at - self._base
        if 0 <= start < len(self._data):
            kinds = (ANY, _MARK, Dict_)
            end, frame = followed(self._data, start, self._stack, self._memo, *kinds)
            self._at = self._base + end
            self._frame = self._base + frame if frame else self._frame

    def _take(self, count: int) -> bytes:
        start = self._at - self._base
        if not 0 <= start <= len(self._data) - count:
            self._data = self._source.read(self._at, max(BLOCK, count))
            self._base, start = self._at, 0
        found = self._data[start : start + count]
        if len(found) < count:
            raise NotFollowed("it is truncated")
        self._at += count
        return found

    def _line(self) -> bytes:
        parts: List[bytes] = []
        while not parts or not parts[-1].endswith(b"\n"):
            parts.append(self._take(1))
            start = self._at - self._base
            if parts[-1] != b"\n":
                end = self._data.find(b"\n", start) + 1
                parts.append(self._take((end or len(self._data)) - start))
        return b"".join(parts)[:-1]

    def _argument(self, opcode: Any) -> bytes:
        length: int = opcode.arg.n
        if length >= 0:
            return self._take(length)
        if length == -1:
            return self._line()
        size = {-2: 1, -3: 4, -4: 4, -5: 8}[length]
        count = int.from_bytes(self._take(size), "little")
        if count > self._source.size:
            raise NotFollowed("it is truncated")
        return self._take(count)

    def _is_followed(self) -> bool:
        """Follows an instruction; False at STOP."""
        opcode = _OPCODES.get(self._take(1)[0])
        if opcode is None:
            raise NotFollowed(f"no opcode at {self._at - 1}")
        argument = b"" if opcode.arg is None else self._argument(opcode)
        name = opcode.name
        special = _SPECIAL.get(name)
        if special is not None:
            special(self, argument)
        elif name == "STOP":
            return False
        elif name in _VALUES:
            self._stack.append(_VALUES[name])
        elif name == "FRAME":
            self._frame = self._at + int.from_bytes(argument, "little")
        elif name.endswith(("PUT", "MEMOIZE")):
            number = len(self._memo) if name == "MEMOIZE" else _number(name, argument)
            self._memo[number] = self._stack[-1]
        elif name.endswith("GET"):
            self._stack.append(self._memo[_number(name, argument)])
        elif name in _NEVER:
            raise NotFollowed(f"{name}, which is never written")
        else:
            self._push_any(opcode, argument)
        return True

    def _push_any(self, opcode: Any, argument: bytes) -> None:
        """Follows an instruction whose results matter only if they are numbers or texts."""
        before = [it.name for it in opcode.stack_before]
        if "mark" in before:
            self._hide(self._to_mark())
            before = before[: before.index("mark")]
        for _ in before:
            self._hide([self._stack.pop()])
        for _ in opcode.stack_after:
            self._stack.append(_value(opcode.name, argument))

    def _to_mark(self) -> List[Any]:
        place = len(self._stack) - 1
        while self._stack[place] is not _MARK:
            place -= 1
            if place < 0:
                raise NotFollowed("no mark")
        found = self._stack[place + 1 :]
        del self._stack[place:]
        return found

    def _push_global(self, module: Any, name: Any) -> None:
        if not (isinstance(module, str) and isinstance(name, str)):
            raise NotFollowed("a name that isn't shown")
        self._judge_global(module, name)
        self._stack.append(Global((module, name)))

    def stack_global(self) -> None:
        name, module = self._stack.pop(), self._stack.pop()
        self._push_global(module, name)

    def tuple_(self, count: int) -> None:
        values = self._to_mark() if count < 0 else self._stack[len(self._stack) - count :]
        if count > 0:
            del self._stack[-count:]
        self._hide_in_tuple(values)
        self._stack.append(tuple(values))

    def _hide_in_tuple(self, values: List[Any]) -> None:
        self._hide(values)

    def set_items(self, items: List[Any]) -> None:
        self._hide(items)
        if isinstance(self._stack[-1], Dict_):
            self._stack[-1].put(items)

    def set_item(self) -> None:
        value, key = self._stack.pop(), self._stack.pop()
        self.set_items([key, value])

    def dict_(self) -> None:
        items = self._to_mark()
        self._stack.append(Dict_())
        self.set_items(items)

    def new_object(self) -> None:
        words, made_by = self._stack.pop(), self._stack.pop()
        self._stack.append(self._new(made_by, words))

    def reduce(self) -> None:
        words, function = self._stack.pop(), self._stack.pop()
        self._stack.append(self._reduce(function, words))

    def build(self) -> None:
        state = self._stack.pop()
        self._build(self._stack[-1], state)


def _number(name: str, argument: bytes) -> int:
    """A memo number."""
    return int(argument) if name in ("GET", "PUT") else int.from_bytes(argument, "little")


def _value(name: str, argument: bytes) -> Any:
    """A number or a short text, if an instruction pushes one."""
    return ANY if len(argument) > _LONGEST else value_of(name, argument)


def value_of(name: str, argument: bytes) -> Any:
    """A number or a text, if an instruction pushes one, whose argument has no count."""
    if name in ("BININT1", "BININT2"):
        return int.from_bytes(argument, "little")
    if name in ("BININT", "LONG1", "LONG4"):
        return int.from_bytes(argument, "little", signed=True)
    if name in ("INT", "LONG"):
        number = argument.rstrip(b"L")
        return {b"00": False, b"01": True}[number] if number in (b"00", b"01") else int(number)
    if name in ("SHORT_BINUNICODE", "BINUNICODE", "BINUNICODE8"):
        return argument.decode("utf-8", "surrogatepass")
    if name in ("SHORT_BINSTRING", "BINSTRING"):
        return argument.decode("latin-1")
    if name == "UNICODE":
        return argument.decode("raw-unicode-escape")
    return argument[1:-1].decode("latin-1") if name == "STRING" else ANY


_SPECIAL: Dict[str, Callable[[Follower, bytes], object]] = {
    "MARK": lambda it, _: it._stack.append(_MARK),
    "DUP": lambda it, _: it._stack.append(it._stack[-1]),
    "POP": lambda it, _: it._stack.pop(),
    "POP_MARK": lambda it, _: it._to_mark(),
    "EMPTY_DICT": lambda it, _: it._stack.append(Dict_()),
    "GLOBAL": lambda it, module: it._push_global(module.decode(), it._line().decode()),
    "STACK_GLOBAL": lambda it, _: it.stack_global(),
    "TUPLE": lambda it, _: it.tuple_(-1),
    "TUPLE1": lambda it, _: it.tuple_(1),
    "TUPLE2": lambda it, _: it.tuple_(2),
    "TUPLE3": lambda it, _: it.tuple_(3),
    "SETITEM": lambda it, _: it.set_item(),
    "SETITEMS": lambda it, _: it.set_items(it._to_mark()),
    "DICT": lambda it, _: it.dict_(),
    "NEWOBJ": lambda it, _: it.new_object(),
    "REDUCE": lambda it, _: it.reduce(),
    "BUILD": lambda it, _: it.build(),
}
"""The instructions whose results matter, by name."""

"""The command `storklocker dis --stack`: the program's listing, with the stack and the memo below
each line. These come from the walk of `explain`, and aren't proved.
"""

from __future__ import annotations

import functools
import shutil
import subprocess
import sys
import tempfile
from pathlib import Path
from typing import IO, Any, Iterator, List, Tuple

from ..scanning.lenient import ANY
from ..scanning.report import shown
from ..scanning.source import Source, source_of
from ..scanning.spelled import Stop
from ..scanning.valued import DICT, FROZENSET, LIST, SET, TUPLE
from .brief import Brief
from .machine import STEPS, Machine
from .nodes import BYTEARRAY, CALL, IMPORT, INSTANCE, LONG, NEW, UNREAD, Node

ITEMS, LETTERS = 8, 60
"""So many values of the stack and of the memo are shown, from the last, each in so many characters.
"""
_PARTS = 3
_BRACKETS = {
    LIST: ("[", "]"), TUPLE: ("(", ")"), DICT: ("{", "}"), SET: ("set(", ")"),
    FROZENSET: ("frozenset(", ")"),
}
_INDENT = 8 * " "


class _Stacks(Machine):
    """Follows a pickle next to the lines of its listing, and writes below each what is there then.
    """

    def __init__(self, source: Source, lines: Iterator[str]) -> None:
        super().__init__(source, 0, STEPS)
        self._lines = lines
        self._depths = [0]
        """How many values and marks there are below each mark that is open, and it."""

    def _event(self, kind: str, items: List[Any]) -> Node:
        made = Node(kind, self.begun, items)
        self._take(items)
        return made

    def after(self) -> None:
        """Writes the next line, and what the instruction has left. Stops where no line is of it."""
        line = next(self._lines, "")
        print(line, end="")
        if line.partition(":")[0].strip() != str(self.begun):
            raise Stop
        held: List[Any] = []
        for stack in (*self._below[-ITEMS:], self._stack):
            held += (_MARK, *stack[-ITEMS:])
        print(f"{_INDENT}stack: {_listed(list(map(_text, held[1:][-ITEMS:])), self._depth())}")
        if self._memo:
            kept = list(self._memo.items())[-ITEMS:]
            words = [f"{number} = {_text(it)}" for number, it in kept]
            print(f"{_INDENT}memo: {_listed(words, len(self._memo))}")


    def _depth(self) -> int:
        """How many values and marks there are."""
        depths, below = self._depths, self._below
        del depths[len(below) + 1 :]
        for stack in below[len(depths) - 1 :]:
            depths.append(depths[-1] + len(stack) + 1)
        return depths[-1] + len(self._stack)


_MARK = Node("MARK", 0, [])


def _listed(words: List[str], count: int) -> str:
    """The last values, and how many more there are."""
    last = words[-ITEMS:]
    more = [f"... {count - len(last):,} more"] if count > len(last) else []
    return ", ".join([*more, *last]) or "empty"


def _text(value: Any) -> str:
    """A value in a few characters."""
    text = Brief(_parts, 2 * LETTERS).text(value)
    return shown(text if len(text) <= LETTERS else f"{text[:LETTERS]}...")


def _parts(it: Any) -> Tuple[Any, ...]:
    """A value of the walk: texts, and values at odd places."""
    if type(it) is not Node:
        return ("...",)
    if it.kind in _BRACKETS:
        return _collected(it)
    if it.kind == IMPORT:
        return (".".join(map(str, it.items)),)
    if it.kind in (CALL, NEW, INSTANCE):
        return "", it.items[0], ".__new__(...)" if it.kind == NEW else "(...)"
    if it.kind == UNREAD:
        return (f"<{it.items[0]}>",)
    if it.kind == LONG:
        return (f"{'text' if it.items[0].is_text else 'bytes'} of {_size(it):,} bytes",)
    if it.kind == BYTEARRAY:
        return "bytearray(", it.items[0], ")"
    return (it.kind if it is _MARK else f"{it.kind}(...)",)


def _size(it: Node) -> int:
    size: int = it.items[0].end - it.items[0].begin
    return size


def _collected(it: Node) -> Tuple[Any, ...]:
    """A collection with its first items."""
    front, end = _BRACKETS[it.kind]
    found: List[Any] = [front]
    for place, part in enumerate(it.items[:_PARTS]):
        found += (part, ": " if it.kind == DICT and place % 2 == 0 else ", ")
    if len(it.items) > _PARTS:
        found[-1] += f"... {len(it.items) - _PARTS:,} more{end}"
    elif it.items:
        found[-1] = f",{end}" if it.kind == TUPLE and len(it.items) == 1 else end
    else:
        found[-1] += end
    return tuple(found)


def _then(act: Any, walk: _Stacks) -> None:
    act(walk)
    walk.after()


_Stacks.acts = {code: functools.partial(_then, act) for code, act in Machine.acts.items()}


def list_with_stacks(program: Path, path: str) -> int:
    """Prints the listing of a file's pickle. Returns the program's status."""
    with tempfile.TemporaryFile() as copied:
        with open(path, "rb") as file:
            held: IO[bytes] = file
            if not file.seekable():
                shutil.copyfileobj(file, copied)
                copied.seek(0)
                held = copied
            return _listing(program, held)


def _listing(program: Path, file: Any) -> int:
    words = [str(program), "dis", "/dev/stdin"]
    with subprocess.Popen(words, stdin=file, stdout=subprocess.PIPE) as ran:
        assert ran.stdout is not None
        lines = (line.decode("utf-8", "replace") for line in ran.stdout)
        walk = _Stacks(source_of(file), lines)
        walk.through()
        for line in lines:
            print(line, end="")
    sys.stdout.flush()
    return ran.returncode

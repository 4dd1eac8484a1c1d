"""Dangerous imports behind what is explained: the verdict has their names, and a search finds them.

What is on the stack and in the memo there isn't known. A text that looks like an import may be one.
"""

from __future__ import annotations

import re
from typing import Iterator, List, Optional

from ..scanning.dangers import judged
from ..scanning.names import named_today, pair_of
from ..scanning.rows import Row
from ..scanning.source import Source
from .machine import Machine
from .nodes import BAD, IMPORT, NOTE, Node

_NAMES, _STEPS = 8, 200
"""The most names that are looked for, and the most instructions behind each."""
_BLOCK, _OVERLAP = 1 << 24, 1 << 10
_TRIES, _EACH, _LONGEST = 64, 8, 256


def behind(row: Row, machine: Machine) -> List[Node]:
    """What the pickle does with dangerous names that it imports behind what was followed."""
    front = machine.source.read(0, 2)
    known = {pair_of(it) for it in named_today(machine.names, front)}
    found: List[Node] = []
    bad = (it for it in map(pair_of, row.names) if it not in known and _is_bad(*it))
    for _, (module, name) in zip(range(_NAMES), bad):
        at = _place(machine.source, machine.at, module or "", name or "")
        told = f"{module}.{name} is imported behind this"
        if at is None:
            found.append(Node(NOTE, machine.at, [f"{told} (--full has it)"]))
            continue
        found.append(Node(NOTE, at, [f"{told}, at {at:,}, where the stack isn't known:"]))
        found += _events_at(machine.source, at)
    return found


def _is_bad(module: Optional[str], name: Optional[str]) -> bool:
    row = judged(module or "", name or "")
    return row is not None and row.severity in BAD


def _events_at(source: Source, at: int) -> Iterator[Node]:
    """What happens from an import on, up to the last event that has to do with it."""
    machine = Machine(source, at, _STEPS, True)
    machine.through()
    last = max((place for place, it in enumerate(machine.events) if it.severity in BAD), default=-1)
    yield from machine.events[: last + 1]


def _place(source: Source, at: int, module: str, name: str) -> Optional[int]:
    """Where a name is imported, from a place on."""
    tries = 0
    for begin in _candidates(source, at, module.encode(), name.encode()):
        machine = Machine(source, begin, _STEPS, True)
        machine.through()
        if any(it.kind == IMPORT and it.items == [module, name] for it in machine.events):
            return begin
        tries += 1
        if tries >= _TRIES:
            break
    return None


def _candidates(source: Source, at: int, module: bytes, name: bytes) -> Iterator[int]:
    """Where an import of a name may begin."""
    texts = [bytes([len(it) & 255]) + it for it in (module, name)]
    while at < source.size:
        data = source.read(at, _BLOCK + _OVERLAP)
        for needle in (b"\n" + name + b"\n", b"\x8c" + texts[1], b"U" + texts[1]):
            place = data.find(needle)
            for _ in range(_TRIES):
                if not 0 <= place < _BLOCK:
                    break
                front = max(0, place - _LONGEST)
                window = data[front:place]
                if needle[:1] == b"\n":
                    begins = [front + it.start() for it in re.finditer(b"[ci]", window)][-_EACH:]
                else:
                    begins = [front + window.rfind(needle[:1] + texts[0])]
                yield from (at + begin for begin in reversed(begins) if begin >= front)
                place = data.find(needle, place + 1)
        at += _BLOCK

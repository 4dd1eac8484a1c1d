"""What the checker has read of a list file, and what is wrong with one."""

from __future__ import annotations

from typing import Any, Optional, Tuple

from ._answers import ListFault
from ._limits import COSTS, MOST_SAID
from ._pairs import records


def fault_of(text: bytes, fault: str) -> Exception:
    """The error for a text that is no list file."""
    if fault == "OutOfMemory":
        return MemoryError()
    from ._places import place_of  # few files have a fault

    return ListFault(fault, "", *place_of(text, fault))


def heard(name: str, number: int, is_said: int) -> Optional[int]:
    """The limit on costs of a list file: the number that was read; by default if it has none."""
    usual, most = COSTS[name]
    if not is_said:
        return usual
    return None if number in (most, MOST_SAID[name]) else number


def substitutes_in(text: bytes, rows: bytes) -> Tuple[Any, Any]:
    """The substitutes of a list file, and the names that are meant to be dangerous."""
    if not rows:
        return {}, ()
    from ._sections import said_in  # few files have such a section

    pairs = [((name or b"").decode(), (its or b"").decode()) for name, its in records(rows)]
    return said_in(text, pairs)

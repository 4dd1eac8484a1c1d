"""The instructions around a refusal, printed like `pktool dis`."""

from __future__ import annotations

import itertools
import pickletools
from typing import Any, Deque, Iterator, Tuple

from .report import Listed
from .rows import Row

AROUND = 10
"""The number of instructions that a listing shows before a refusal, and from there on."""
_LISTED = 1 << 16
"""The most bytes in front of a refusal for which there is a listing."""
_SHOWN, _BITS = 80, 256


def listing(row: Row) -> Tuple[Listed, ...]:
    """The listing for a row, if a pickle of it is refused."""
    data, offset = row.refused
    if row.refusal is None or row.refusal.at - offset > _LISTED:
        return ()
    return tuple(_around(data, row.refusal.at, offset))


def _around(data: bytes, at: int, offset: int) -> Iterator[Listed]:
    before: Deque[Listed] = Deque(maxlen=AROUND)
    found = _lines(data, offset)
    for line in found:
        if line.at >= at:
            yield from before
            yield line
            yield from itertools.islice(found, AROUND - 1)
            return
        before.append(line)
    yield from before


def _lines(data: bytes, offset: int) -> Iterator[Listed]:
    try:
        for opcode, argument, place in pickletools.genops(data):
            at = (place or 0) + offset
            code = ord(opcode.code)
            yield Listed(at, f"{at}: {code:02x} {opcode.name}{_shown(argument)}")
    except Exception:
        # pickletools raises at the fault, which the verdict has already reported.
        return


def _shown(argument: Any) -> str:
    if argument is None:
        return ""
    if isinstance(argument, int) and argument.bit_length() > _BITS:
        return f" {argument.bit_length()} bits"  # its digits would take long to find
    text = repr(argument[:_SHOWN] if isinstance(argument, (str, bytes)) else argument)
    return f" {text}" if len(text) <= _SHOWN else f" {text[:_SHOWN]}..."

"""Reads exactly one pickle from a file that can't seek back."""

from __future__ import annotations

import functools
import io
from typing import Any, Callable, Dict

from ._reading import block_of
from ._storklocker import walked

_PIECE = 1 << 16
_FIRST_CHECK = 256


@functools.lru_cache(maxsize=None)
def _arguments() -> Dict[bytes, Any]:
    """The argument descriptor of each opcode in `pickletools`, by code; it has the length."""
    import pickletools

    return {op.code.encode("latin-1"): op.arg for op in pickletools.opcodes}


class Walk:
    """Takes exactly one pickle from a file that can't seek back.

    It stops at an invalid instruction and at the end of the file; a check of the bytes taken then
    reports why. Each time that their number has doubled, and before a payload that is longer than
    all of them, it asks `is_refused`, and stops if they are refused already. It takes no more than
    `most` bytes.
    """

    def __init__(self, file: Any, most: int, is_refused: Callable[[bytes], bool]) -> None:
        self._read, self._readline = file.read, file.readline
        self._gives_pieces = isinstance(file, io.IOBase)  # other readers may not accept a length
        is_buffered = isinstance(file, io.BufferedIOBase) and hasattr(file, "peek")
        self._peek = file.peek if is_buffered else None
        self._most, self._is_refused = most, is_refused
        self._taken = bytearray()
        self._next_check = _FIRST_CHECK

    def taken(self) -> bytes:
        """Takes a pickle, up to its STOP."""
        while self._goes_on() and not self._is_over():
            pass
        return bytes(self._taken)

    def _goes_on(self) -> bool:
        """Takes the instructions that the file has at hand, or else the next one. False after STOP
        and where no instruction can follow.
        """
        end, is_stopped = walked(self._at_hand(), 0)
        if end > 0:
            self._piece(end)
            return not is_stopped
        codes = _arguments()
        code = self._piece(1)
        return code in codes and self._argument(codes[code]) and code != b"."

    def _at_hand(self) -> bytes:
        """The bytes that the file can show without a read."""
        if self._peek is None:
            return b""
        try:
            return bytes(self._peek(1))
        except NotImplementedError:  # `pickle` asks such a file no more either
            self._peek = None
            return b""

    def _argument(self, kind: Any) -> bool:
        """Takes the argument of an instruction; False if no instruction can follow it."""
        if kind is None:
            return True
        if kind.n == -1:
            lines = 2 if kind.name == "stringnl_noescape_pair" else 1
            return all(self._line() for _ in range(lines))
        if kind.n >= 0:
            return self._bytes(kind.n)
        size = {-2: 1, -3: 4, -4: 4, -5: 8}[kind.n]
        count = self._piece(size)
        length = int.from_bytes(count, "little", signed=kind.n == -3)
        return len(count) == size and length >= 0 and self._bytes(length)

    def _piece(self, count: int) -> bytes:
        """Takes `count` bytes, or fewer at the end of the file."""
        count = min(count, self._most - len(self._taken))
        found = block_of(self._read, count)
        while 0 < len(found) < count:
            more = block_of(self._read, count - len(found))
            if not more:
                break
            found += more
        self._taken += found
        return found

    def _is_over(self) -> bool:
        """Whether too much was taken, or what was taken is refused."""
        length = len(self._taken)
        return length >= self._most or length >= self._next_check and self._is_hopeless()

    def _is_hopeless(self) -> bool:
        self._next_check = max(_FIRST_CHECK, 2 * len(self._taken))
        return self._is_refused(bytes(self._taken))

    def _bytes(self, length: int) -> bool:
        if length > max(_PIECE, len(self._taken)) and self._is_hopeless():
            return False
        while length > 0:
            piece = self._piece(min(length, _PIECE))
            if not piece or self._is_over():
                return False
            length -= len(piece)
        return True

    def _line(self) -> bool:
        """Reads a line, in pieces if possible, so that an endless one is refused early."""
        while True:
            count = min(_PIECE, self._most - len(self._taken))
            line = self._readline(count) if self._gives_pieces else self._readline()
            if not isinstance(line, bytes):
                raise TypeError(f"the file must be open in binary mode: it returned {type(line)!r}")
            self._taken += line
            if line.endswith(b"\n"):
                return True
            if len(line) < _PIECE or not self._gives_pieces or self._is_hopeless():
                return False

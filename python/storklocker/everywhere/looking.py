"""What a guard that enforces nothing sees of a file that the interpreter's own reader reads."""

from __future__ import annotations

import io
from typing import Any, Callable

from .._guard import Guard
from .._reading import can_step_back


class Looking:
    """A block in which a reader reads the next pickle of `file`. What the guard would refuse is
    reported first, if the file can step back, and else when the block ends.
    """

    def __init__(self, guard: Guard, file: Any) -> None:
        self.file = file
        self._heard = None if _steps_back(file) else Heard(file)
        if self._heard is not None:
            self.file = self._heard
        self._admitting: Any = guard.Unpickler(
            _Faultless(file) if self._heard is None else self._heard.copy
        )

    def __enter__(self) -> None:
        if self._heard is None:
            place = self.file.tell()
            try:
                self._look()
            finally:
                self.file.seek(place)

    def __exit__(self, *raised: Any) -> None:
        if self._heard is not None:
            self._heard.copy.seek(self._heard.seen)
            self._look()
            self._heard.seen = self._heard.copy.tell()

    def _look(self) -> None:
        try:
            self._admitting.admit()
        except EOFError:  # which the reader raises itself
            pass


def _steps_back(file: Any) -> bool:
    try:
        return can_step_back(file) and isinstance(file.tell(), int)
    except Exception:  # what the file raises, its reader shows
        return False


class _Faultless:
    """A file that ends where it can't be read: what it raises, its reader shows."""

    def __init__(self, file: Any) -> None:
        self.tell, self.seek, self.seekable = file.tell, file.seek, file.seekable
        self.readline: Any = None
        self._file = file

    def read(self, count: int) -> bytes:
        """The next bytes, if there are."""
        try:
            return bytes(memoryview(self._file.read(count)))
        except Exception:
            return b""


class Heard:
    """Passes on what a file gives, and keeps a copy."""

    def __init__(self, file: Any) -> None:
        self._file = file
        self.copy, self.seen = io.BytesIO(), 0

    def __getattr__(self, name: str) -> Any:
        given = getattr(self._file, name)
        if name in ("read", "readline"):
            return self._keeping(given)
        return self._keeping_in(given) if name == "readinto" else given

    def _keep(self, data: Any) -> None:
        self.copy.seek(0, io.SEEK_END)
        self.copy.write(data)

    def _keeping(self, read: Callable[..., Any]) -> Callable[..., Any]:
        def reading(*given: Any) -> Any:
            data = read(*given)
            if isinstance(data, bytes):
                self._keep(data)
            return data

        return reading

    def _keeping_in(self, read: Callable[[Any], Any]) -> Callable[[Any], Any]:
        def reading(buffer: Any) -> Any:
            count = read(buffer)
            if isinstance(count, int) and count > 0:
                self._keep(memoryview(buffer)[:count])
            return count

        return reading

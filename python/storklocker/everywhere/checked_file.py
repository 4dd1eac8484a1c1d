"""The file of a reader that no guard has replaced: it gives no byte of a pickle unchecked.

A subclass of `pickle.Unpickler` that was made before `install`, and that calls its base by the name
`Unpickler`, comes to the replacement of that name with a reader of its own.
"""

from __future__ import annotations

import io
import pickle
from typing import Any, Optional

from .._guard import Guard

_WITH_ARGUMENT = b"J"

class CheckedFile:
    """Gives a reader the pickles of a file, each after the guard has accepted it as a whole. The
    file is left right behind the pickle that was given last.
    """

    def __init__(self, guard: Guard, file: Any) -> None:
        self._admitting: Any = guard.Unpickler(file)
        self._given, self._size = io.BytesIO(), 0
        self._fault: Optional[pickle.UnpicklingError] = None

    def read(self, count: int) -> bytes:
        """The next bytes of a pickle, or the first ones of the next.

        CPython's reader takes an UnpicklingError for the end of the file where it asks for an
        opcode. So it gets one with an argument, and the error when it asks for that.
        """
        if self._fault is not None:
            fault, self._fault = self._fault, None
            raise fault
        if self._given.tell() == self._size:
            try:
                data = self._admitting.admit()
            except pickle.UnpicklingError as error:
                self._fault = error
                return _WITH_ARGUMENT
            self._given, self._size = io.BytesIO(data), len(data)
        return self._given.read(count)

    def readline(self) -> bytes:
        """The next line of the pickle."""
        return self._given.readline()

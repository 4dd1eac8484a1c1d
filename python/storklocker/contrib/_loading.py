"""Error handling that the adapters share, for pickles that cannot be loaded."""

from __future__ import annotations

import pickle
from typing import Any

from .._guard import Guard


class Unloadable(pickle.UnpicklingError):
    """A pickle was accepted, but something it called raised an exception, now in `__cause__`."""


class Loader:
    """A guard in the role of the module `pickle`. It turns exceptions of loaded objects into
    `UnpicklingError`, because a hostile pickle can make a listed callable raise anything.
    """

    def __init__(self, guard: Guard) -> None:
        self._guard = guard
        self._load, self._loads = guard.load, guard.loads

    def __getattr__(self, name: str) -> Any:
        return getattr(self._guard, name)

    def load(self, file: Any, **words: Any) -> Any:
        """`pickle.load` through the guard."""
        try:
            return self._load(file, **words)
        except _KEPT:
            raise
        except Exception as error:
            raise _unloadable(error) from error

    def loads(self, data: Any, **words: Any) -> Any:
        """`pickle.loads` through the guard."""
        try:
            return self._loads(data, **words)
        except (pickle.UnpicklingError, MemoryError):
            raise
        except Exception as error:
            raise _unloadable(error) from error


_KEPT = (pickle.UnpicklingError, EOFError, OSError, MemoryError)


def _unloadable(error: Exception) -> Unloadable:
    return Unloadable(f"its load raised {type(error).__name__}")

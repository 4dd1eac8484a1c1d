"""A shelf whose values are checked before they are loaded.

    from storklocker.contrib import shelve

    with shelve.open("jobs", guard) as shelf:
        shelf["a"]                  # raises Refused if the guard refuses it

The context of a `Refusal` is the key.
"""

from __future__ import annotations

import os
import shelve as plain
from typing import Any, Optional, Union

from .._guard import Guard
from ._misses import about
from ._rebinding import rebound


def open(
    path: Union[str, os.PathLike[str]],
    guard: Guard,
    *,
    flag: Any = "c",
    protocol: Optional[int] = None,
    writeback: bool = False,
) -> plain.Shelf[Any]:
    """`shelve.open` with every value loaded through the guard. Keys are strings, not pickles."""

    class Unpickler:
        """Loads one value. Unlike `guard.Unpickler` it keeps no memo, so it costs less."""

        def __init__(self, file: Any) -> None:
            self._file = file

        def load(self) -> Any:
            return guard.load(self._file)

    bound = rebound(plain.DbfilenameShelf, {"Unpickler": Unpickler})

    class Shelf(bound):  # type: ignore[misc, valid-type]
        def __getitem__(self, key: str) -> Any:
            with about(key):
                return super().__getitem__(key)

    return Shelf(os.fspath(path), flag, protocol, writeback)

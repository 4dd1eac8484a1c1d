"""Loads pickles of which nothing is judged any more."""

import functools
import io
import pickle

from . import _names

TYPE_CHECKING = False
if TYPE_CHECKING:
    from typing import Any

LOADS, UNPICKLER = pickle.loads, pickle.Unpickler
"""Those of the interpreter: this module is imported before a guard may stand in their place."""


@functools.lru_cache(maxsize=1)
def _renaming() -> "Any":
    """An Unpickler that imports each pair under its Python 3 name.

    `pickle` renames by the current protocol, which a second PROTO can change. Then the names that
    are loaded would not be those that were checked.
    """
    plain: Any = UNPICKLER

    class Renaming(plain):  # type: ignore[misc]
        def find_class(self, module: str, name: str, /) -> "Any":
            return super().find_class(*_names.renamed((module, name)))

    return Renaming


def loads(data: bytes, is_old: bool, **named: "Any") -> "Any":
    """`pickle.loads`, which imports each pair of an old pickle under its Python 3 name."""
    if is_old and data.find(b"\x80", 2 if data[:1] == b"\x80" else 0) >= 0:
        return _renaming()(io.BytesIO(data), fix_imports=False, **named).load()
    return LOADS(data, fix_imports=is_old, **named)

"""joblib's reader of files behind a guard: it loads what `load_joblib` does.

joblib reads instructions and arrays in turn, so no check can go in front of its own reader.
`joblib.load` and the caches of `joblib.Memory` come here.
"""

from __future__ import annotations

import sys
from typing import Any, Callable, List

from .holders import Change
from .state import NOW
from .trust import unchecked

_MODULE, _CLASS = "joblib.numpy_pickle", "NumpyUnpickler"


def is_joblib(kind: Any) -> bool:
    """Whether a subclass of `pickle._Unpickler` is the reader of joblib."""
    return (kind.__module__, kind.__qualname__) == (_MODULE, _CLASS)


def replace_joblib(changes: List[Change]) -> List[Change]:
    """Gives joblib's reader, if joblib is imported, a guarded `load`. Its module keeps the class
    that it derives from, because it calls that by its name. Returns all changes.
    """
    module = sys.modules.get(_MODULE)
    kind = getattr(module, _CLASS, None)
    if not isinstance(kind, type):
        return changes
    bases = [it for it in changes if it.owner is module and it.before in kind.__mro__]
    for change in bases:
        change.undo()
    plain: Any = getattr(kind, "load")
    if not hasattr(plain, "plain"):
        setattr(kind, "load", load_of(plain))
    return [*(it for it in changes if it not in bases), Change(kind, "load", plain)]


def restore_joblib() -> None:
    """Gives joblib's reader its own `load` again."""
    kind: Any = getattr(sys.modules.get(_MODULE), _CLASS, None)
    plain = getattr(vars(kind).get("load"), "plain", None) if isinstance(kind, type) else None
    if plain is not None:
        setattr(kind, "load", plain)


def load_of(plain: Callable[[Any], Any]) -> Callable[[Any], Any]:
    """The `load` of joblib's reader, which loads files of trusted code as before."""

    def load(reader: Any) -> Any:
        """Loads a file of joblib through the guard that is installed."""
        state = NOW.state
        if state is None or state.frees(sys._getframe(1)):
            return unchecked(plain, (reader,), {})
        if not state.guard.enforce:  # each import is reported
            vars(reader).pop("_storklocker_way", None)
            return plain(reader)
        from ..contrib.joblib import load_joblib  # few programs have joblib

        if reader.mmap_mode is None:
            return load_joblib(reader.file_handle, state.guard)
        return load_joblib(reader.filename, state.guard, mmap_mode=reader.mmap_mode)

    setattr(load, "plain", plain)
    return load

"""The readers that stand in place of those of `pickle`, one each for the life of the process: they
ask for the guard that applies when they are called, so that blocks may end in any order.
"""

from __future__ import annotations

import copy
import copyreg
import functools
from types import BuiltinFunctionType
from typing import Any, Dict, List

from .holders import ORIGINALS, Change, replace_all
from .joblib_reader import replace_joblib, restore_joblib
from .reading import functions
from .unpickling import unpicklers


@functools.lru_cache(maxsize=None)
def standing() -> Dict[str, Any]:
    """The readers by name."""
    return {**functions(), **unpicklers()}


def stand() -> List[Change]:
    """Puts them wherever a reader of `pickle` is held. Returns where they are."""
    own = standing()
    instead = {id(reader): own[name] for name, reader in ORIGINALS.items()}
    instead.update((id(reader), reader) for reader in own.values())
    copyreg.dispatch_table.setdefault(BuiltinFunctionType, _reduced)
    return replace_joblib(replace_all(instead))


def leave() -> None:
    """Puts the readers of `pickle` wherever one of these is still held."""
    replace_all({id(reader): ORIGINALS[name] for name, reader in standing().items()})
    restore_joblib()
    if copyreg.dispatch_table.get(BuiltinFunctionType) is _reduced:
        del copyreg.dispatch_table[BuiltinFunctionType]


def _reduced(function: Any) -> Any:
    """How a function of C is pickled. A reader that is held elsewhere has no name any more: it is
    pickled as the one that has.
    """
    for name, reader in ORIGINALS.items():
        if function is reader:
            return copy.copy, (standing()[name],)
    return function.__reduce__()

"""The substitutes that names have under all lists."""

from __future__ import annotations

import sys
from typing import Dict, List, Optional, Tuple

from . import _arrays, _builtins, _calls, _collections, _of_packages, _random
from ._objects import found
from ._substitute import Substitute

Pair = Tuple[str, str]

TABLE = {
    **_arrays.TABLE, **_random.TABLE, **_builtins.TABLE, **_calls.TABLE, **_collections.TABLE,
    **_of_packages.TABLE,
}
"""The substitutes, by the pair that imports them."""
_by_id: Dict[int, Substitute] = {}
_known_modules: List[int] = []


def _by_object() -> Dict[int, Substitute]:
    """The substitutes by the id of what they stand for, which other pairs may name too."""
    if _known_modules != [len(sys.modules)]:
        _known_modules[:] = [len(sys.modules)]
        if "numpy" in sys.modules:
            _by_id.update(_arrays.by_object())
        for (module, name), substitute in TABLE.items():
            held = None if (module, name) in _arrays.TABLE else sys.modules.get(module)
            it = None if held is None else vars(held).get(name)  # (`getattr` may import a module)
            if it is not None:
                _by_id[id(it)] = substitute
    return _by_id


def for_object(it: object) -> Optional[Substitute]:
    """The substitute for an object, by whatever pair it is imported."""
    return _by_object().get(id(it)) or _of_packages.substitute_for(it)


def substitute_of(pair: Pair) -> Optional[Substitute]:
    """The substitute for a name under all lists, if it has one."""
    return TABLE[pair] if pair in TABLE else for_object(found(*pair))  # (may import NumPy)

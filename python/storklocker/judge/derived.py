"""Classes of which a load calls only methods of built-in classes."""

from __future__ import annotations

import enum
import os
from typing import Any

PLAIN = frozenset(
    "__module__ __doc__ __dict__ __weakref__ __slots__ __annotations__ __qualname__ __parameters__"
    " __abstractmethods__ __orig_bases__ __match_args__ __static_attributes__ __firstlineno__"
    " __reduce__ __reduce_ex__ __getstate__ __copy__ __deepcopy__ __dir__ __sizeof__".split()
)
"""The members of a class with such names that no load calls."""
BUILTINS = (object, dict, list, tuple, set, frozenset, str, int, float, bytes, BaseException)
"""Classes that hold data, and call nothing of it but its own special methods."""
_ABC = type(os.PathLike)
_IN_C = 1 << 9
"""The flag of a class that Python code has made; of others the slots may do anything."""


def is_derived(it: Any) -> bool:
    """Whether all special methods of a class are those of built-in classes."""
    if not isinstance(it, type) or type(it) not in (type, enum.EnumMeta, _ABC):
        return False
    for owner in it.__mro__:
        if owner in BUILTINS or owner.__module__ == "enum":
            continue
        if owner.__module__ == "builtins" and issubclass(owner, BaseException):
            continue
        if not owner.__flags__ & _IN_C or not all(map(_is_plain(owner), vars(owner).items())):
            return False
    return True


def _is_plain(owner: type) -> Any:
    """What says of a member of a class, with its name, that no load calls it."""

    def said(item: Any) -> bool:
        name, own = item
        if isinstance(own, property) and own.fset is not None:
            return False
        is_special = name.startswith("__") and name.endswith("__") and name not in PLAIN
        is_called = is_special or name in ("append", "extend", "add", "_missing_")
        return not is_called or own is None or _is_of_enum(owner, own)

    return said


def _is_of_enum(owner: type, method: Any) -> bool:
    """Whether a special method of an enum is that of its data type, or made by `enum`."""
    of = getattr(getattr(method, "__objclass__", None), "__module__", "")
    is_of_enum = getattr(method, "__module__", "") == "enum" or of == "builtins"
    is_builtin = type(method).__module__ == "builtins" and not hasattr(method, "__code__")
    return issubclass(owner, enum.Enum) and (is_of_enum or is_builtin)

"""The pairs of classes and functions, as `pickle` names them."""

from __future__ import annotations

import functools
import sys
import types
from typing import Any, Tuple

KINDS = (type, types.FunctionType, types.BuiltinFunctionType)


def pair_of(it: Any) -> Tuple[str, str]:
    """The pair by which a pickle of protocol 4 or later names a class or a function. Raises
    ValueError if none can.
    """
    name = getattr(it, "__qualname__", None) or it.__name__
    module = getattr(it, "__module__", None)
    if "<lambda>" in name.split("."):
        raise ValueError(f"{it!r:.80} is a lambda, which no pickle can name: define a function")
    if "<locals>" in name.split("."):
        raise ValueError(
            f"{it!r:.80} is defined in a function, where no pickle finds it: define it in a module"
        )
    if module == "__main__":
        raise ValueError(
            f"{it!r:.80} is defined in __main__, which differs in each program: define it in a"
            " module that is imported"
        )
    if not isinstance(module, str):
        raise ValueError(f"{it!r:.80} belongs to an object, so no pickle names it alone")
    if found(module, name) is not it:
        raise ValueError(f"{it!r:.80} isn't what a pickle finds as {module}.{name}")
    return (module, name)


def found(module: str, name: str) -> Any:
    """What is under a name, as `pickle` looks it up; None if nothing is."""
    try:
        __import__(module)
        return functools.reduce(getattr, name.split("."), sys.modules[module])
    except (ImportError, KeyError, AttributeError, ValueError):
        return None

"""What was there before a load, and could be changed by it."""

from __future__ import annotations

import builtins
import copyreg
import os
import random
import sys
import threading
import types
from typing import Any, Dict, Iterable, Optional, Tuple

PASSING = ("__abstractmethods__", "_abc_impl", "__warningregistry__", "__slotnames__", "_cache",
           "_cache_dtypes", "_value2member_map_", "_netmask_cache")
"""Attributes that Python sets when it likes, and caches of pandas' types, of flags together and of
masks of networks, of which there are not many.
"""
_LEVELS, _MANY = 3, 200
"""How far an object is looked at, and how many attributes of one are looked into."""
_CODES = "?bhilqpBHILQPefdgFDGSUVOMm"
"""The codes of NumPy's own types, which all arrays share."""


def older(pairs: Iterable[Tuple[str, str]], with_sizes: bool = False) -> Dict[Any, Any]:
    """What could be changed of the objects that are named, of their members, and of Python; also
    the sizes of what their modules keep, if that is asked.
    """
    found: Dict[Any, Any] = {"kept": _kept()}
    for module, word in pairs:
        held = sys.modules.get(module)
        if held is not None:
            named = vars(held).get(word)
            found[module, word] = _parts(named, _LEVELS)
            found[module] = {key: id(it) for key, it in vars(held).items() if key not in PASSING}
            if with_sizes:
                found[f"more in {module}"] = {
                    key: len(it) for key, it in vars(held).items()
                    if type(it) in (list, set, dict) and key not in PASSING}
            for base in getattr(named, "__mro__", ()):
                if base not in found:
                    found[base] = _parts(base, _LEVELS)
    found["builtins"] = {key: id(it) for key, it in vars(builtins).items() if key != "_"}
    return found


def changed(before: Dict[Any, Any], after: Dict[Any, Any]) -> Optional[str]:
    """The place of the first difference of two such answers, or None."""
    for key in dict.fromkeys([*before, *after]):
        was, now = before.get(key), after.get(key)
        if was != now:
            inner = changed(was, now) if isinstance(was, dict) and isinstance(now, dict) else None
            return f"{key}" if inner is None else f"{key} {inner}"
    return None


def _parts(it: Any, levels: int) -> Any:
    """What could be changed of an object: its attributes or its items, and those of these."""
    if levels == 0 or isinstance(it, (types.ModuleType, types.FunctionType)):
        return None
    if type(it) in (list, set, bytearray):
        return len(it)
    own = it if type(it) is dict else getattr(it, "__dict__", None)
    if own is None:
        return None
    deeper = levels - 1 if len(own) <= _MANY else 0
    return {key: (id(own[key]), _parts(own[key], deeper)) for key in list(own)
            if key not in PASSING and not (isinstance(own[key], type) and levels < _LEVELS)}


def _kept() -> Dict[str, Any]:
    """What Python and the libraries keep for all: settings, chance, files, threads."""
    found: Dict[str, Any] = {
        "dispatch": len(copyreg.dispatch_table), "recursion": sys.getrecursionlimit(),
        "environment": dict(os.environ), "path": list(sys.path), "folder": os.getcwd(),
        "files": len(os.listdir("/proc/self/fd")), "threads": threading.active_count(),
        "chance": random.getstate(),
    }
    decimal, numpy, torch = map(sys.modules.get, ("decimal", "numpy", "torch"))
    if decimal is not None:
        its = decimal.getcontext()
        found["decimal"] = (its.prec, its.rounding, its.Emin, its.Emax, dict(its.traps))
    if numpy is not None:
        own = [numpy.dtype(code) for code in _CODES]
        found["types"] = {it.char: (repr(it), it.metadata, it.flags, it.itemsize) for it in own}
        found["numpy"] = (numpy.geterr(), numpy.random.get_state()[1].tobytes())
    if torch is not None:
        found["torch"] = (torch.is_grad_enabled(), torch.get_default_dtype(), torch.initial_seed())
    return found

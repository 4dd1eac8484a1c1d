"""Into which objects of its own a pickle may put items.

Picklers do so with subclasses of lists, dicts and sets, with deques, and with classes that say
themselves how they are pickled. An array, a type or another object of a substitute takes no items:
it was judged as it is, and an item may be a reference, a size or a place that nobody judges.
"""

from __future__ import annotations

import functools
import types
from collections import deque
from typing import Any

from ._answers import Misused
from ._facts import PACKAGES

_HEAP = 1 << 9
"""The flag of classes that are made while Python runs, as all are that are written in Python."""
_CONTAINERS = (dict, list, set, deque)
_SAYING = ("__reduce_ex__", "__reduce__")
SHOWING = ("http.cookies",)
"""Modules whose dicts make texts of their items: the items of such are judged one by one."""


@functools.lru_cache(maxsize=512)
def takes_items(kind: type) -> bool:
    """Whether an object of a class may be given items."""
    if kind.__module__ in SHOWING:
        return False
    return issubclass(kind, _CONTAINERS) or _is_own(kind)


def _is_own(kind: type) -> bool:
    """Whether a class, of which no part is compiled, says itself how its objects are pickled. Those
    of packages have methods by the names that a reader calls, but none of their pickles has items.
    """
    if any(it.__module__.partition(".")[0] in PACKAGES for it in kind.__mro__):
        return False
    held = (vars(it)[word] for it in kind.__mro__[:-1] for word in _SAYING if word in vars(it))
    return isinstance(next(held, None), types.FunctionType) and all(
        it in (object, *_CONTAINERS) or it.__flags__ & _HEAP for it in kind.__mro__
    )


@functools.lru_cache(maxsize=64)
def judging(kind: Any) -> Any:
    """A subclass of a dict of cookies, or of one cookie, which takes cookies or short values. It
    stands for the class until the pickle is loaded.
    """
    from http.cookies import BaseCookie, Morsel

    taken: Any = Morsel if issubclass(kind, BaseCookie) else (str, bool, int, float, type(None))

    def put(self: Any, key: Any, value: Any) -> None:
        is_long = type(value) is int and value.bit_length() > 64
        if type(key) is not str or not isinstance(value, taken) or is_long:
            raise Misused(f"a {kind.__name__} has an item of another kind")
        kind.__setitem__(self, key, value)

    return type(kind.__name__, (kind,), {"__setitem__": put, "__module__": __name__})

"""The states that a class may read: dicts of the names in its code, and honest ones that lie."""

from __future__ import annotations

import functools
import inspect
from typing import Any, Callable, Dict, Iterator, List, Tuple

_MOST, _LONGEST = 300, 60
"""The most names of a state, and the most characters of one."""
State = Tuple[str, Callable[[Any], Any]]
"""What a state is, and what makes it of a value."""


def states_of(kind: type) -> Iterator[State]:
    """States with a value in every place that methods of a class read."""
    named = _names_in(kind)
    if named:
        yield "with all names", functools.partial(dict.fromkeys, named)
    honest = _honest(kind)
    for name in honest:
        yield f"with {name} alone", functools.partial(_with, honest, name)
    for count in (2, 3, 4, 5, 6):
        yield f"as {count} in a tuple", functools.partial(_row, count)
    for word in _settable(kind):
        yield f"for the property {word}", functools.partial(_slot, word)


def _with(state: Dict[str, Any], name: str, value: Any) -> Any:
    return {**state, name: value}


def _row(count: int, value: Any) -> Any:
    return (value,) * count


def _slot(word: str, value: Any) -> Any:
    return (None, {word: value})


def _names_in(kind: type) -> List[str]:
    """The attributes and the texts that methods of a class have in their code."""
    found = set()
    for owner in kind.__mro__:
        for method in vars(owner).values():
            code = getattr(method, "__code__", None)
            if code is not None:
                found |= {*code.co_names, *(it for it in code.co_consts if type(it) is str)}
    return [word for word in sorted(found) if word.isidentifier() and len(word) < _LONGEST][:_MOST]


def _honest(kind: Any) -> Dict[str, Any]:
    """The state of an object that is made with nothing, in which a pickle may change anything."""
    try:
        state: Dict[str, Any] = kind().__reduce_ex__(4)[2]
    except Exception:  # (whatever a class raises that wants arguments, or has no pickles)
        return {}
    return state if isinstance(state, dict) and all(type(it) is str for it in state) else {}


def _settable(kind: type) -> List[str]:
    return [word for word in dir(kind)
            if getattr(inspect.getattr_static(kind, word, None), "fset", None)]

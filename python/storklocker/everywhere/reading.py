"""The functions in place of `pickle.load` and `loads`, for the life of the process. They call the
plain ones where no guard is installed.
"""

from __future__ import annotations

import pickle
import sys
from types import BuiltinFunctionType, FrameType
from typing import Any, Callable, Dict, Iterable, Optional, Tuple

from .._guard import Guard
from .._storklocker import stand_in
from .holders import ORIGINALS
from .looking import Looking
from .state import NOW
from .trust import is_any_trusted, reported, unchecked

_loads = ORIGINALS["loads"]
_SMALL = 1 << 12
"""Checking fewer bytes costs less than finding out who asks for them."""


class Words:
    """The arguments of a call of a reader."""

    __slots__ = ("source", "encoding", "errors", "buffers")

    def __init__(
        self,
        source: Any,
        *,
        fix_imports: bool = True,
        encoding: str = "ASCII",
        errors: str = "strict",
        buffers: Optional[Iterable[Any]] = None,
    ) -> None:
        self.source, self.buffers = source, buffers
        # The guard decides itself where the caller says nothing.
        self.encoding = None if encoding == "ASCII" else encoding
        self.errors = None if errors == "strict" else errors

    @property
    def named(self) -> Dict[str, Any]:
        """Those for a guard, but for the first one."""
        return {"encoding": self.encoding, "errors": self.errors, "buffers": self.buffers}


def words_of(given: Tuple[Any, ...], named: Dict[str, Any], first: str) -> Words:
    """The arguments of a call. The first one may be named."""
    if not given and first in named:
        given = (named[first],)
        named = {name: value for name, value in named.items() if name != first}
    return Words(*given, **named)


def _loads_front(*given: Any, **named: Any) -> Any:
    """`pickle.loads` through the guard that is installed."""
    refusal = NOW.refusal
    if refusal is not None and len(given) == 1 and not named:
        data = given[0]
        if type(data) is bytes and len(data) < _SMALL and not is_any_trusted():
            if refusal(data) is None:  # whoever asks
                return _loads(data, fix_imports=False)
    return _loaded(_loads, given, named, sys._getframe(1))


def _loaded(
    plain: Callable[..., Any], given: Tuple[Any, ...], named: Dict[str, Any], frame: FrameType
) -> Any:
    state = NOW.state
    if state is None or state.frees(frame):
        return unchecked(plain, given, named)
    guard = state.guard.now()
    if not guard.enforce:
        _look(guard, *given)
        return reported(plain, given, named)
    words = words_of(given, named, "data")
    return guard.loads_front(words.source, words.encoding, words.errors, words.buffers)


def _look(guard: Guard, data: Any = b"", *_: Any) -> None:
    """Reports what a guard that enforces nothing would refuse."""
    try:
        data = bytes(memoryview(data))
    except (TypeError, ValueError):  # the reader says what is wrong with it
        return
    no = guard.listed_for(data).refusal(data)
    if no is not None and not no.accepted:
        guard.refuse(no, data)


def _load_front(*given: Any, **named: Any) -> Any:
    """`pickle.load` through the guard that is installed."""
    return _loaded_from(ORIGINALS["load"], given, named, sys._getframe(1))


def _loaded_from(
    plain: Callable[..., Any], given: Tuple[Any, ...], named: Dict[str, Any], frame: FrameType
) -> Any:
    state = NOW.state
    if state is None or state.frees(frame):
        return unchecked(plain, given, named)
    if state.guard.enforce:
        words = words_of(given, named, "file")
        return state.guard.load(words.source, **words.named)
    if not given and "file" in named:
        given = (named.pop("file"),)
    looking = Looking(state.guard, given[0] if given else None)
    with looking:
        return reported(plain, (looking.file, *given[1:]) if given else given, named)


def _load_in_python(
    file: Any,
    *,
    fix_imports: bool = True,
    encoding: str = "ASCII",
    errors: str = "strict",
    buffers: Optional[Iterable[Any]] = None,
) -> Any:
    words: Any = {"encoding": encoding, "errors": errors, "buffers": buffers}
    words["fix_imports"] = fix_imports
    return _loaded_from(ORIGINALS["_load"], (file,), words, sys._getframe(1))


def _loads_in_python(
    s: Any,
    /,
    *,
    fix_imports: bool = True,
    encoding: str = "ASCII",
    errors: str = "strict",
    buffers: Optional[Iterable[Any]] = None,
) -> Any:
    words: Any = {"encoding": encoding, "errors": errors, "buffers": buffers}
    words["fix_imports"] = fix_imports
    return _loaded(ORIGINALS["_loads"], (s,), words, sys._getframe(1))


_FRONTS: Dict[str, Callable[..., Any]] = {
    "load": _load_front,
    "loads": _loads_front,
    "_load": _load_in_python,
    "_loads": _loads_in_python,
}


def functions() -> Dict[str, Any]:
    """The functions in place of those of `pickle`, by their names. Each looks as the plain one."""
    return {name: _standing(name, _FRONTS[name]) for name in ORIGINALS if name in _FRONTS}


def _standing(name: str, front: Any) -> Any:
    plain: Any = ORIGINALS[name]
    if type(ORIGINALS[name]) is BuiltinFunctionType:
        doc = f"{name}{plain.__text_signature__}\n--\n\n{plain.__doc__}"
        return stand_in(name == "loads", front, plain.__self__, doc.encode())
    if plain.__module__ == pickle.__name__ and name in ("load", "loads"):  # as under PyPy
        front = _FRONTS["_" + name]
    for each in ("__name__", "__qualname__", "__module__", "__doc__", "__annotations__"):
        setattr(front, each, getattr(plain, each))
    # (the pickle may be named before 3.9)
    code, count = front.__code__, plain.__code__.co_posonlyargcount
    front.__code__ = code.replace(co_posonlyargcount=min(count, code.co_posonlyargcount))
    return front

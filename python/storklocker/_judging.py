"""What the reader of most pickles with objects judges, where no name is judged.

`judging.c` reads them as a `Reader` does, in fewer steps. Here is what it asks.
"""

from __future__ import annotations

import collections
import io
import types
import weakref
from pickle import UnpicklingError
from typing import Any, Dict, FrozenSet, List, Tuple, cast

from . import _compiled, _library, _storklocker
from ._states import SHARED, build, has_own, judge_made, set_state_of
from ._reader import MOST_FREE, Feed, Reader
from ._uses import Piece

_DICTS = frozenset(("own", "unbuilt", "types", "states", "raised", "lent"))
"""Attributes of a `Reader`, which are seldom needed."""
_Unpickler: Any = Reader.__bases__[0]
"""The class of `pickle`, in whose place a guard may be installed by now."""
_WORDS = {"fix_imports": False}


class _Own(_Unpickler):  # type: ignore[misc]
    """The same class, whose objects have attributes of their own."""


def _reader_class() -> Any:
    """The class whose objects take another `persistent_load`: in Python 3.13.0 that of `pickle`
    doesn't.
    """
    try:
        _Unpickler(io.BytesIO()).persistent_load = len
    except AttributeError:
        return _Own
    return _Unpickler


_Reader = _reader_class()


class Bench:
    """Stands for a `Reader` where objects of one pickle are judged."""

    takes_any = False
    _room = MOST_FREE
    pay = Reader.pay

    def __getattr__(self, name: str) -> Dict[Any, Any]:
        if name not in _DICTS:
            raise AttributeError(name)
        made: Dict[Any, Any] = {}
        setattr(self, name, made)
        return made

    def judge(self, asked: Any, /) -> Any:
        """Judges what a call has made, or sets a state."""
        # (no variable has the object: references to it are counted)
        if type(asked) is not tuple or len(asked) < 2:
            raise UnpicklingError(
                "A load persistent id instruction was encountered, "
                "but no persistent_load function was specified."
            )
        own = cast(Reader, self)
        if len(asked) == 3:
            judge_made(own, asked)
        elif not _compiled.is_built(own, asked):
            build(own, asked[0], asked[1])
            _compiled.check(own, asked[0])
        return asked[0]


def _begin() -> Any:
    """What judges the objects of one pickle."""
    return Bench().judge


def _feed_of(pieces: List[Piece]) -> Feed:
    feed = Feed()
    feed.fill(pieces)
    return feed


_JUDGED: FrozenSet[Any] = frozenset((BaseException, *SHARED))
_IS_OF_PYTHON = 1 << 9


def _kind_of(kind: Any) -> Any:
    """What is known of a class: True if its objects have a `__dict__` of their own, of which
    nothing more is to be judged; the function of Python that sets its state; or None.
    """
    is_known = (
        type(kind) is type
        and not issubclass(kind, tuple(_JUDGED))
        and kind.__flags__ & _IS_OF_PYTHON != 0
        and not any(map(_compiled.is_of_package, kind.__mro__))
        and "__class__" not in {name for base in kind.__mro__[:-1] for name in vars(base)}
    )
    if not is_known:
        return None
    set_state = set_state_of(kind)
    if _library.judge_of(kind) is not None:
        return _library.uuid_setter() if kind.__module__ == "uuid" else None
    if set_state is None:
        return has_own(kind) or None
    is_own = any(vars(base).get("__setstate__") is set_state for base in kind.__mro__)
    return set_state if is_own and type(set_state) is types.FunctionType else None


_CONTAINERS: Tuple[type, ...] = (
    collections.OrderedDict, collections.defaultdict, collections.deque, collections.Counter
)
"""Classes whose objects have no attributes before their state is set."""
_begin_judges: Any = getattr(_storklocker, "begin_judges", None)
JUDGES: Any = None
"""What the loads of `judging.c` have in common. PyPy, which counts no references, has none."""
if _begin_judges is not None:
    JUDGES = _begin_judges(
        _Reader, _WORDS, _feed_of, _begin, _kind_of, _CONTAINERS, weakref.getweakrefcount
    )


def judged(pieces: List[Piece]) -> Any:
    """The object of a pickle that its uses have respelled."""
    if JUDGES is not None:
        judged_by: Any = getattr(_storklocker, "judged")
        return judged_by(JUDGES, pieces)
    reader: Any = _Reader(_feed_of(pieces), **_WORDS)
    reader.persistent_load = _begin()
    return reader.load()

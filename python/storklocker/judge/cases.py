"""The pickles for a name, how they are loaded, and what is done with what they make."""

from __future__ import annotations

import copy
import functools
import importlib
import inspect
import io
import itertools
import os
import pickle
from typing import Any, Callable, Dict, Iterator, List, NamedTuple, Tuple

from . import shapes
from .derived import BUILTINS, PLAIN
from .forms import forms
from .objects import OBJECTS, TELLING, Probe
from .states import states_of
from .watch import WATCH

_GIVEN = b"K\0Q"
"""The object that a case makes, which the pickle asks for by a persistent id."""
_STATE = b"K\1Q"
_EXPENSIVE = ("doubled", "itself", "deep")
"""Shapes that no object bears that is shown, hashed or compared: what holds them isn't used."""
_MADE = ("__new__", "__init__", "__class__", "__init_subclass__", "__subclasshook__", "__del__")
_TAKEN = 3
"""How many items of an iteration are taken."""


class Case(NamedTuple):
    """A pickle for a name, and what it gets by persistent ids."""

    how: str
    """What it does."""
    shape: str
    """With what."""
    data: bytes
    made: Tuple[Callable[[], Any], ...] = ()
    is_used: bool = True
    """Whether what it makes is used too."""


def cases(module: str, word: str, it: Any) -> Iterator[Case]:
    """What is tried with a name, which is this object."""
    called = shapes.name(module, word)
    yield Case("called", "nothing", b"\x80\x04" + called + b")R.")
    yield Case("made", "nothing", b"\x80\x04" + called + b")\x81.")
    for what, data in shapes.kinds().items():
        is_used = not any(it in what for it in _EXPENSIVE)
        for how, body in forms(called, data):
            yield Case(how, what, b"\x80\x04" + body, (), is_used)
    for what, make in OBJECTS.items():
        for how, body in forms(called, _GIVEN):
            yield Case(how, what, b"\x80\x04" + body, (make,))
    if isinstance(it, type):
        yield from _states(called, it)


def _states(called: bytes, kind: type) -> Iterator[Case]:
    body = b"\x80\x04" + called + b")\x81" + _STATE + b"b."
    for what, make in OBJECTS.items():
        if what in TELLING:
            continue  # (a method may call any attribute: its name is judged by itself)
        for how, state in states_of(kind):
            made = (make, functools.partial(_stated, make, state))
            yield Case(f"built {how}", what, body, made)


def _stated(make: Callable[[], Any], state: Callable[[Any], Any]) -> Any:
    return state(make())


class _Reader(pickle.Unpickler):
    """Loads a case. It finds names by itself, so that another reader's are told from its own."""

    def __init__(self, case: Case) -> None:
        super().__init__(io.BytesIO(case.data), buffers=(b"abc", b"def"))
        self._made = case.made

    def find_class(self, module: str, name: str, /) -> Any:
        return found(module, name)

    def persistent_load(self, number: Any, /) -> Any:
        return self._made[number]()


def found(module: str, name: str) -> Any:
    """The object of a name, which may have dots."""
    it: Any = importlib.import_module(module)
    for word in name.split("."):
        it = getattr(it, word)
    return it


def load(case: Case) -> None:
    """Loads a case, and uses what it makes as programs use objects."""
    files = os.listdir()
    try:
        made = _Reader(case).load()
        for use in uses_of(made) if case.is_used else ():
            _used(use, made)
    except (SystemExit, KeyboardInterrupt) as error:
        WATCH.note(f"process: it raises {type(error).__name__}")
    finally:
        if os.listdir() != files:
            WATCH.note("write: files have changed")


def _used(use: Callable[[Any], Any], made: Any) -> None:
    try:
        use(made)
    except (MemoryError, SystemExit):
        raise
    except Exception:  # (few objects can be used in each way)
        pass


def _taken(made: Any) -> List[Any]:
    return list(itertools.islice(iter(made), _TAKEN))


def _predicted(made: Any) -> Any:
    return made.predict([[0.5, 0.5, 0.5]])


_USES: Tuple[Callable[[Any], Any], ...] = (
    repr, str, hash, len, bool, _taken, copy.copy, lambda it: it == copy.copy(it), _predicted,
)
USES = "repr, str, hash, len, bool, ==, iteration, copy, predict, and the class's special methods"
"""What is done with objects, in words."""
_kept: Dict[type, Tuple[Callable[[Any], Any], ...]] = {}


def uses_of(made: Any) -> Tuple[Callable[[Any], Any], ...]:
    """What is done with an object: with what is none of a class of Python's own, also what that
    class says itself.
    """
    kind = type(made)
    if kind not in _kept:
        own = () if kind in BUILTINS or kind is type else tuple(_special(kind))
        _kept[kind] = () if kind is Probe else _USES + own
    return _kept[kind]


def _asked(name: str, given: Tuple[Any, ...], it: Any) -> Any:
    return getattr(it, name)(*given)


def _special(kind: type) -> Iterator[Callable[[Any], Any]]:
    for name in dir(kind):
        method = inspect.getattr_static(kind, name, None)
        if not (name.startswith("__") and name.endswith("__")) or name in (*PLAIN, *_MADE):
            continue
        if callable(method) and getattr(method, "__objclass__", None) not in BUILTINS:
            for given in ((), ("a",), (0,), ("a", "a")):
                yield functools.partial(_asked, name, given)

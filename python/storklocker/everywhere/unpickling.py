"""The classes in place of `pickle.Unpickler` and `_Unpickler`, for the life of the process. They
read as before where no guard is installed.
"""

from __future__ import annotations

import abc
import functools
import io
import pickle
import sys
import weakref
from types import FrameType
from typing import Any, Callable, Dict, Type

from .._guard import Guard
from .._unpickler import GuardedUnpickler
from .checked_file import CheckedFile
from .holders import ORIGINALS
from .joblib_reader import is_joblib, load_of
from .looking import Looking
from .reading import Words, words_of
from .state import NOW, State
from .trust import reported, unchecked

_IN_PYTHON: Any = ORIGINALS.get("_Unpickler", pickle.Unpickler)
_PLAIN: Dict[Type[Any], Any] = {}
"""The classes of `pickle` by those that stand in their place."""
_WAY = "_storklocker_way"


class Free:
    """How an Unpickler reads that was made by code that may load anything: if who loads may, too.
    """

    def __init__(self) -> None:
        self._is_loading = False

    def load(self, plain: Type[Any], reader: Any, frame: FrameType) -> Any:
        """The object of the next pickle."""
        state = NOW.state
        before, self._is_loading = self._is_loading, state is None or state.frees(frame)
        try:
            return unchecked(plain.load, (reader,), {}) if self._is_loading else plain.load(reader)
        finally:
            self._is_loading = before

    def find_class(self, plain: Type[Any], reader: Any, *pair: str) -> Any:
        """An object that a pickle imports."""
        if self._is_loading:
            return unchecked(plain.find_class, (reader, *pair), {})
        return plain.find_class(reader, *pair)


class Watched:
    """How one reads under a guard that enforces nothing."""

    def __init__(self, state: State, file: Any) -> None:
        self._state, self._looking = state, Looking(state.guard, file)
        self.file = self._looking.file

    def load(self, plain: Type[Any], reader: Any, frame: FrameType) -> Any:
        """The object of the next pickle."""
        if NOW.state is not self._state:  # it has ended
            return plain.load(reader)
        with self._looking:
            return reported(plain.load, (reader,), {})

    def find_class(self, plain: Type[Any], reader: Any, *pair: str) -> Any:
        """An object that a pickle imports."""
        if NOW.state is not self._state:
            return plain.find_class(reader, *pair)
        return reported(plain.find_class, (reader, *pair), {})


class Guarded:
    """How one reads under a guard: an Unpickler of the guard loads what it admits."""

    def __init__(self, make: Callable[[Any], Any], reader: Any) -> None:
        self._make, self.admitting, self._is_primed = make, make(reader), False

    def begin_memo(self, reader: Any, held: Any) -> None:
        """Begins anew, with what is in a memo."""
        self.admitting, self._is_primed = self._make(reader), len(held) > 0

    def load(self, plain: Type[Any], reader: Any, frame: FrameType) -> Any:
        """The object of the next pickle."""
        if self._is_primed:
            raise pickle.UnpicklingError("a check doesn't know a memo that was set")
        return self.admitting.load()

    def find_class(self, plain: Type[Any], reader: Any, *pair: str) -> Any:
        """An object that a pickle imports."""
        return self.admitting.found(*pair)


class Kind(abc.ABCMeta):
    """The class of the classes below. What was made before is an instance of theirs as well."""

    def __instancecheck__(cls, it: Any) -> bool:
        return cls.__subclasscheck__(type(it)) or super().__instancecheck__(it)

    def __subclasscheck__(cls, kind: Any) -> bool:
        plain = _PLAIN.get(cls)
        if plain is None:
            return super().__subclasscheck__(kind)
        return issubclass(kind, plain)


def unpicklers() -> Dict[str, Any]:
    """The classes in place of those of `pickle`, by their names. Each looks as the plain one."""
    names = [name for name in ("Unpickler", "_Unpickler") if name in ORIGINALS]
    return {name: _standing(ORIGINALS[name]) for name in names}


def _standing(plain: Type[Any]) -> Type[Any]:
    class Unpickler(plain, metaclass=Kind):  # type: ignore[misc]
        def __init_subclass__(cls, **named: Any) -> None:
            super().__init_subclass__(**named)
            if is_joblib(cls):
                setattr(cls, "load", load_of(getattr(cls, "load")))

        def __init__(self, *given: Any, **named: Any) -> None:
            state = NOW.state
            if state is None or state.frees(sys._getframe(1)):
                _set_way(self, Free())
                plain.__init__(self, *given, **named)
            elif state.guard.enforce:
                _begin_guarded(self, Unpickler, state, words_of(given, named, "file"))
            else:
                given = given or (named.pop("file", None),)
                watched = Watched(state, given[0])
                _set_way(self, watched)
                plain.__init__(self, watched.file, *given[1:], **named)

        def load(self) -> Any:
            way = getattr(self, _WAY, None)
            if way is None:
                return plain.load(self)
            return way.load(plain, self, sys._getframe(1))

        def find_class(self, module: str, name: str, /) -> Any:
            way = getattr(self, _WAY, None)
            if way is None:
                return plain.find_class(self, module, name)
            return way.find_class(plain, self, module, name)

    _PLAIN[Unpickler] = plain
    if hasattr(plain, "memo"):  # (the reader in Python sets it)
        setattr(Unpickler, "memo", _memo_of(plain))
    for each in ("__name__", "__qualname__", "__module__", "__doc__"):
        setattr(Unpickler, each, getattr(plain, each))
    return Unpickler


def _set_way(reader: Any, way: Any) -> None:
    try:
        object.__setattr__(reader, _WAY, way)
    except AttributeError:  # a subclass that was made before has slots only
        pass


def _begin_guarded(reader: Any, standing: Type[Any], state: State, words: Words) -> None:
    plain = _PLAIN[standing]
    named = words.named
    if standing not in type(reader).__mro__:  # of a subclass that was made before
        named = {name: value for name, value in named.items() if value is not None}
        plain.__init__(reader, CheckedFile(state.guard, words.source), **named)
        return
    kind = state.admitting.get(plain)
    if kind is None:
        kind = state.admitting[plain] = _admitting(state.guard, plain)
    made: Callable[..., Any] = kind
    way = Guarded(functools.partial(made, file=words.source, **named), reader)
    _set_way(reader, way)
    named["encoding"], named["errors"] = state.guard.decoding(words.encoding, words.errors)
    plain.__init__(reader, way.admitting.feed, fix_imports=False, **named)


def _memo_of(plain: Type[Any]) -> Any:
    own: Any = plain

    def memo(self: Any) -> Any:
        """The memo; under a guard a copy, since the check is of what it holds."""
        way = getattr(self, _WAY, None)
        return way.admitting.memo if isinstance(way, Guarded) else own.memo.__get__(self)

    def set_memo(self: Any, value: Any) -> None:
        way = getattr(self, _WAY, None)
        if not isinstance(way, Guarded):
            own.memo.__set__(self, value)
            return
        # Another reader says whether it is a memo: this one's own is never read, and CPython's
        # may end the process where an empty one is set, and then a dict.
        own.memo.__set__(own(io.BytesIO()), value)
        way.begin_memo(self, value.copy())

    return property(memo, set_memo)


def _admitting(guard: Guard, of: Type[Any]) -> Type[Any]:
    base: Type[GuardedUnpickler] = guard.Unpickler
    kind: Any = base

    class Admitting(kind):  # type: ignore[misc]
        """Loads each pickle of a file for another reader, which it asks for classes and persistent
        objects. If that is one in Python with other instructions, those load what is admitted.
        """

        def __init__(self, reader: Any, file: Any, **named: Any) -> None:
            super().__init__(file, **named)
            self._reader_of = weakref.ref(reader)

        def find_class(self, module: str, name: str, /) -> Any:
            reader: Any = self._reader_of()
            return reader.find_class(module, name)

        def persistent_load(self, number: Any, /) -> Any:
            load = getattr(self._reader_of(), "persistent_load", None)
            if load is None:
                raise pickle.UnpicklingError(
                    "A load persistent id instruction was encountered,\n"
                    "but no persistent_load function was specified."
                )
            return load(number)

        @property
        def feed(self) -> Any:
            """The file that the reader reads."""
            return self._feed

        def found(self, module: str, name: str) -> Any:
            return super().find_class(module, name)

        def _loaded(self, feed: Any, end: int) -> Any:
            reader: Any = self._reader_of()
            if of is not _IN_PYTHON or reader.dispatch == _IN_PYTHON.dispatch:
                return super()._loaded(feed, end)
            if self.guard.has_substitutes:
                raise pickle.UnpicklingError(
                    f"{type(reader).__name__} has instructions of its own, which can't be used with"
                    " a list whose names are loaded through substitutes"
                )
            self._show(feed, end)
            return of.load(reader)

    return Admitting

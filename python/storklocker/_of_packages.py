"""Substitutes for names of packages, most of which picklers write in one way only.

A class without a `__reduce__` of its own is given to NEWOBJ, and never called: so none of its calls
has to be judged. What is left are functions and classes that say themselves how they are called.
"""

from __future__ import annotations

import enum
import functools
import sys
import types
from typing import TYPE_CHECKING, Any, Callable, Dict, Optional, Tuple

from . import (
    _facts, _of_blocks, _of_jobs, _of_numpy, _of_offsets, _of_pandas, _of_sklearn, _of_torch
)
from ._answers import Misused
from ._calls import row, shown, takes_fields, takes_row, takes_text, wrong
from ._items import SHOWING, judging
from ._substitute import BECOMES_REAL, Class, Remembering, Substitute, Value, nothing
from ._weighing import CONTAINERS, SCALARS, keys_of, values

if TYPE_CHECKING:
    from ._reader import Reader

PACKAGES = tuple(it for it in _facts.PACKAGES if it != "numpy")
"""The packages of which any name may have a substitute, beside NumPy."""
_REDUCE = ("__reduce__", "__reduce_ex__")
MOST_TOGETHER = 10_000
"""The most flags together that pickles may have Python keep of a class."""
_BITS = 128
"""The most bits of one of these."""


def substitute_for(it: Any) -> Optional[Substitute]:
    """The substitute for what a name of a package means, if it has one, or for an enum."""
    function = _of_numpy.function_of(it)  # (which has a module since NumPy 2.2)
    module = getattr(it, "__module__", None)
    if function is not None or type(module) is not str:
        return function
    if isinstance(it, enum.EnumMeta):
        return _members(it)
    package = module.partition(".")[0]
    if package not in PACKAGES and package != "numpy" and module not in SHOWING:
        return None
    try:
        return _found(it, module, package)
    except TypeError:  # (an object that can't be hashed)
        return None


@functools.lru_cache(maxsize=4096)
def _members(kind: Any) -> Substitute:
    """An enum, which hashes the value that names a member, and shows one that names none."""
    name = f"{kind.__module__}.{kind.__qualname__}"

    def judged(reader: Reader, *given: Any) -> Any:
        keys_of(reader, given)
        values(reader, tuple(it for it in given if type(it) in CONTAINERS))
        if issubclass(kind, enum.Flag) and _is_full(kind, given):
            raise wrong(name)
        return kind(*given)

    return _Members(name, judged, kind)


def _is_full(kind: Any, given: Tuple[Any, ...]) -> bool:
    """Whether Python would keep more flags together until the process ends than are ever needed: it
    keeps each that it makes.
    """
    kept = kind._value2member_map_
    if len(given) == 1 and type(given[0]) is int and given[0] in kept:
        return False
    is_long = any(type(it) is int and it.bit_length() > _BITS for it in given)
    return is_long or len(kept) >= len(kind.__members__) + MOST_TOGETHER


def judge_together(reader: Reader, given: Tuple[Any, ...]) -> None:
    """Refuses all but flags of one class, or a flag and bits that its class doesn't name: other
    things are copied.
    """
    kinds = list(map(type, given))
    if len(kinds) != 2 or not issubclass(kinds[0], enum.Flag) or kinds[1] not in (kinds[0], int):
        raise wrong("or_")
    keys_of(reader, map(_bits_of, given))
    if _is_full(kinds[0], (_bits_of(given[0]) | _bits_of(given[1]),)):
        raise wrong("or_")


def _together(reader: Reader, *given: Any) -> Any:
    judge_together(reader, given)
    return given[0] | given[1]


def _bits_of(flag: Any) -> Any:
    return flag.value if isinstance(flag, enum.Flag) else flag


class _Members(Remembering):
    __slots__ = ("_kind",)

    def __init__(self, name: str, judged: Callable[..., Any], kind: Any) -> None:
        super().__init__(name, judged, BECOMES_REAL)
        self._kind = kind

    def real(self) -> Any:
        return self._kind


class _Showing(Class):
    """A class of dicts that makes texts of their items."""

    __slots__ = ()

    def new(self, reader: Any, *given: Any) -> Any:
        self.judge_new(reader, given)
        kind = judging(self._kind)
        made = kind.__new__(kind)
        reader.unbuilt[id(made)] = made
        reader.disguised.append((made, self._kind))
        return made


class _Filled(Class):
    """A class with a compiled part, which follows pointers that the state sets."""

    __slots__ = ()

    def new(self, reader: Any, *given: Any) -> Any:
        made = super().new(reader, *given)
        reader.unbuilt[id(made)] = made
        return made


@functools.lru_cache(maxsize=4096)
def _found(it: Any, module: str, package: str) -> Optional[Substitute]:
    name = f"{module}.{getattr(it, '__qualname__', '')}"
    if package == "numpy":
        own = _of_numpy.substitute_of(it, name)
        if own is not None or not (isinstance(it, type) and it.__flags__ & _IS_OF_PYTHON):
            return own
    if package == "torch":
        found: Optional[Substitute] = _of_torch.substitute_of(it, module)
        return found
    if isinstance(it, types.FunctionType):
        return Value(name) if package in ("sklearn", "scipy") else None
    if not isinstance(it, type):
        return None
    if issubclass(it, BaseException):
        return shown(module, it.__qualname__)
    if _says_how(it) and not (package == "pandas" and _is_filled(it)):
        return None
    if module in SHOWING:
        return _Showing(name, it)
    if package == "pandas" and not all(map(_is_of_python, it.__mro__)):
        return _Filled(name, it)
    if not issubclass(it, tuple):
        return Class(name, it, takes_text if issubclass(it, (str, bytes)) else nothing)
    if not hasattr(it, "_fields"):
        return Class(name, it, takes_row)
    return Class(name, it, takes_fields if _is_plain(it) else _refuse_fields)


def _is_plain(kind: Any) -> bool:
    """Whether a named tuple is made as `namedtuple` says, and not by code of its own."""
    module = getattr(kind.__new__, "__module__", None)
    return type(module) is str and module.startswith("namedtuple_")


def _refuse_fields(reader: Reader, name: str, given: Tuple[Any, ...]) -> None:
    raise wrong(name)


def _is_of_python(kind: type) -> bool:
    """Whether no part of a class's own is compiled."""
    return kind.__module__ in _BASES or kind.__flags__ & _IS_OF_PYTHON != 0


_BASES = ("builtins", "collections", "datetime")
_IS_OF_PYTHON = 1 << 9  # the flag of classes that Python code makes


def _says_how(kind: type) -> bool:
    """Whether a class says itself how its objects are pickled."""
    return any(word in vars(base) for base in kind.__mro__[:-1] for word in _REDUCE)


def _is_filled(kind: type) -> bool:
    """Whether a class of pandas is one whose objects its own functions make for pickles."""
    names = ("Index", "ExtensionArray", "NDArrayBacked")
    return any(base.__name__ in names for base in kind.__mro__)


def _model(reader: Reader, *given: Any) -> Any:
    """An empty instance of a model of Django."""
    from django.db.models import Model, base

    if len(given) != 1:
        raise wrong("model_unpickle")
    asked: Any = given[0]
    is_pair = type(asked) is tuple and len(asked) == 2 and all(type(it) is str for it in asked)
    if not is_pair and not (isinstance(asked, type) and issubclass(asked, Model)):
        raise wrong("model_unpickle")
    return base.model_unpickle(asked)


def _unwrapped(reader: Reader, *given: Any) -> Any:
    """What a lazy object of Django has made: an instance of a model, a visitor, or a value. It gets
    no second state, because the reader has it too.
    """
    from django.contrib.auth.models import AnonymousUser
    from django.db.models import Model

    if len(given) != 1:
        raise wrong("unpickle_lazyobject")
    if type(given[0]) not in SCALARS:
        if not isinstance(given[0], Model) and type(given[0]) is not AnonymousUser:
            raise wrong("unpickle_lazyobject")
        reader.used[id(given[0])] = given[0]
    return given[0]


def judge_signature(reader: Reader, given: Tuple[Any, ...]) -> None:
    """Refuses what no pickler gives for a signature of Celery, which goes through its tasks."""
    if not given or type(given[0]) not in (dict, str):
        raise wrong("signature")
    values(reader, given)


def _signature(reader: Reader, *given: Any) -> Any:
    import celery.canvas

    judge_signature(reader, given)
    return celery.canvas.signature(*given)


def _raised(reader: Reader, *given: Any) -> Any:
    from billiard.einfo import rebuild_exc

    if len(given) != 2 or not isinstance(given[0], BaseException) or type(given[1]) is not str:
        raise wrong("rebuild_exc")
    return rebuild_exc(*given)


def judge_wrapped(reader: Reader, given: Tuple[Any, ...]) -> None:
    """Refuses what no pickler gives for an exception that couldn't be pickled."""
    if len(given) not in (3, 4) or type(given[2]) not in (list, tuple):
        raise wrong("UnpickleableExceptionWrapper")
    if any(type(it) not in (str, type(None)) for it in (*given[:2], *given[3:])):
        raise wrong("UnpickleableExceptionWrapper")
    values(reader, given)


def _wrapped(reader: Reader, *given: Any) -> Any:
    from celery.utils.serialization import UnpickleableExceptionWrapper

    judge_wrapped(reader, given)
    return UnpickleableExceptionWrapper(*given)


def _nothing(name: str) -> Callable[..., Any]:
    def judged(reader: Reader, *given: Any) -> Any:
        if given:
            raise wrong(name)
        import pytz

        return vars(pytz)[name]()

    return judged


TOGETHER = ("_operator", "or_")
"""What picklers write for flags together."""
TABLE: Dict[Tuple[str, str], Substitute] = {
    **_of_numpy.TABLE,
    **_of_sklearn.TABLE,
    **_of_pandas.TABLE,
    **_of_blocks.TABLE,
    **_of_offsets.TABLE,
    **_of_torch.TABLE,
    **_of_jobs.TABLE,
    **dict(
        [
            row("django.db.models.base", "model_unpickle", _model),
            row("django.utils.functional", "unpickle_lazyobject", _unwrapped),
            row("celery.canvas", "signature", _signature),
            row("billiard.einfo", "rebuild_exc", _raised),
            row("celery.utils.serialization", "UnpickleableExceptionWrapper", _wrapped),
            row("pytz", "_UTC", _nothing("_UTC")),
            row(*TOGETHER, _together),
        ]
    ),
}

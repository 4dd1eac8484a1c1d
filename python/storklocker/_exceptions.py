"""Judges exceptions, with which Python does more than with other objects when it prints them.

It imports the module that an ImportError names, asks the `obj` of an AttributeError for its names,
takes the bytes of a UnicodeDecodeError at an offset that nothing has checked, and prints as many
marks as a SyntaxError says. These are attributes that classes of Python have in C. There a pickle
sets numbers and texts only; in others an exception holds whatever the list permits.
"""

from __future__ import annotations

import functools
import pathlib
import types
from typing import TYPE_CHECKING, Any, Dict, List, Tuple

from ._answers import Misused, told
from ._weighing import CONTAINERS, values

if TYPE_CHECKING:
    from ._reader import Reader

LEVELS = 100
"""How many exceptions may lie within one another."""
_MOST = 10_000
"""The most arguments of an exception, and the most parts of a tuple that is one of its attributes.
"""
_COLUMNS = 1 << 16
"""The greatest line, column or offset that is printed."""
_PLAIN = (str, bytes, int, float, bool, complex, type(None))
_PATHS = ("filename", "filename2", "path")
_IS_OF_PYTHON = 1 << 9  # the flag of classes that Python code makes
_Levels = Dict[int, Tuple[BaseException, int]]
"""The exceptions that were judged, by id, each with its levels."""


def _is_plain(value: Any) -> bool:
    """Whether a value is a text, a number, bytes or None, or a short tuple of such."""
    if type(value) is tuple and len(value) < 16:
        return all(type(part) in _PLAIN for part in value)
    return type(value) in _PLAIN


@functools.lru_cache(maxsize=512)
def members_of(kind: Any) -> Dict[str, Any]:
    """The attributes that an exception has in C, by name."""
    found: Dict[str, Any] = {}
    for base in reversed(kind.__mro__):
        if issubclass(base, BaseException) and not base.__flags__ & _IS_OF_PYTHON:
            for name, it in vars(base).items():
                if isinstance(it, (types.MemberDescriptorType, types.GetSetDescriptorType)):
                    found[name] = it
    return found


def judged_state(kind: Any, state: Any) -> Any:
    """The state that is set of an exception of a class. An ImportError loses what it couldn't find
    in a module (`name_from`), for which Python would import that module.
    """
    if not isinstance(state, dict):
        is_plain = getattr(kind, "__setstate__") is BaseException.__setstate__
        if state is not None and is_plain:
            raise Misused("the state of an exception has an unexpected form")
        return state
    members = members_of(kind)
    kept = {}
    for name, value in dict.items(state):
        if type(name) is not str:
            raise Misused("the state of an exception has a name that isn't text")
        if name == "name_from" and issubclass(kind, ImportError):
            continue
        _judge_attribute(kind, members, name, value)
        kept[name] = value
    return kept


def _judge_attribute(kind: type, members: Dict[str, Any], name: str, value: Any) -> None:
    if name == "__notes__":
        if type(value) not in (list, tuple) or any(type(note) is not str for note in value):
            raise Misused("the notes of an exception aren't text")
    elif name == "args":
        if type(value) is not tuple:
            raise Misused("the arguments of an exception aren't a tuple")
    elif name in members or name[:2] == "__" == name[-2:]:
        is_path = isinstance(value, pathlib.PurePath) and name in _PATHS
        if name[:2] == "__" or not (_is_plain(value) or is_path):
            raise Misused(f"the state of an exception sets {name!r:.80} to {told(value)}")
    elif callable(getattr(kind, name, None)):
        raise Misused(f"the state of an exception sets {name!r:.80}, a method of its class")


def hashed_state(reader: Reader, error: Any, state: Any) -> Any:
    """The state of an exception with a hash of its own: Django's hashes its message, its code and
    the values of its parameters, or otherwise each exception that it is of, several times.
    """
    kind: Any = type(error)
    if kind.__hash__ is BaseException.__hash__ or type(state) is not dict:
        return state
    for name in ("message", "code", "params"):
        value = state.get(name)
        for part in value.values() if type(value) is dict else (value,):
            if type(part) in CONTAINERS:
                values(reader, part)
    if "message" in error.__dict__ and "error_dict" not in state:
        return state
    made = dict(state)
    if "error_list" in state:
        made["error_list"] = _leaves(reader, state["error_list"])
    if "error_dict" in state:
        if type(state["error_dict"]) is not dict:
            raise Misused("the errors of an exception aren't in a dict")
        made["error_dict"] = {it: _leaves(reader, row) for it, row in state["error_dict"].items()}
    return made


def _leaves(reader: Reader, errors: Any) -> List[Any]:
    """Exceptions that have a message each, in a list that the pickle doesn't have."""
    if type(errors) is not list:
        raise Misused("the errors of an exception aren't in a list")
    reader.pay(8 * len(errors))
    if not all(isinstance(it, BaseException) and "message" in it.__dict__ for it in errors):
        raise Misused("an exception contains others without a message")
    return list(errors)


def judge_error(levels: _Levels, error: Any) -> None:
    """Judges an exception as it is after it was made, or after its state was set."""
    kind: Any = type(error)
    held = []
    for name, member in members_of(kind).items():
        if name[:2] == "__":
            continue
        try:
            value = member.__get__(error)
        except AttributeError:  # it has no such number
            continue
        held.append(value)
        if type(value) is tuple and len(value) > _MOST:
            raise Misused(f"{kind!r:.80} has too many {name}")
        for base, judge in _JUDGES.items():
            if issubclass(kind, base) and not judge(name, value):
                raise Misused(f"{kind!r:.80} has {told(value)} as its {name}")
    if issubclass(kind, UnicodeError):
        _judge_places(error)
    levels[id(error)] = (error, 0)  # (some have themselves as an argument)
    level = 1 + max(_levels_in(levels, value, LEVELS) for value in held)
    if level > LEVELS:
        raise Misused(f"more than {LEVELS} exceptions are nested in one another")
    levels[id(error)] = (error, level)


def _levels_in(levels: _Levels, value: Any, room: int) -> int:
    """How many exceptions are nested in one another in a value or in the parts of a tuple."""
    found = 0
    for part in value if type(value) is tuple else (value,):
        if isinstance(part, BaseException):
            known = levels.get(id(part))
            deeper = _levels_in(levels, part.args, room - 1) if known is None and room > 0 else 0
            found = max(found, 1 + deeper if known is None else known[1])
    return found


def _of_syntax(name: str, value: Any) -> bool:
    if name in ("lineno", "offset", "end_lineno", "end_offset") and type(value) is not str:
        return value is None or type(value) is int and -1 <= value <= _COLUMNS
    return name == "args" or _is_plain(value)


def _of_import(name: str, value: Any) -> bool:
    if name in ("msg", "args"):
        return True
    if name == "path" and isinstance(value, pathlib.PurePath):
        return True
    return value is None if name == "name_from" else _is_plain(value)


def _of_names(name: str, value: Any) -> bool:
    return name == "args" or _is_plain(value)


_JUDGES = {
    SyntaxError: _of_syntax,
    ImportError: _of_import,
    AttributeError: _of_names,
    NameError: _of_names,
}


def _judge_places(error: Any) -> None:
    """Judges the offsets of a UnicodeError, at which Python reads when it prints it."""
    if not isinstance(error, (UnicodeEncodeError, UnicodeDecodeError, UnicodeTranslateError)):
        return
    kind: Any = type(error)
    members = members_of(kind)
    if any(members[name].__get__(error) < 0 for name in ("start", "end")):
        raise Misused("a UnicodeError has offsets before its text")

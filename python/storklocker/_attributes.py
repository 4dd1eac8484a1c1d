"""Judges the attributes that a state sets, and that Python gives a meaning.

Of names with underscores around them an instance has few honest ones: those that decorators copy
from functions, and those of `typing`. No other is set: Python looks up `__deepcopy__`, `__class__`,
`__signature__`, `__dataclass_fields__` and more on instances too. Of those that are, this is read:

    __annotations__    typing.get_type_hints evaluates a text as an expression
    __annotate__       since Python 3.14 called for the annotations
    __wrapped__        followed to its end, which a circle doesn't have
    __module__         imported when an object is pickled again whose class has a `__reduce__` that
                       returns a text
    __name__, __qualname__, __doc__    shown, and looked up in that module
    __type_params__    looked through by typing.get_type_hints

Python reads `__orig_class__` and `__version__` nowhere: they may be anything.
"""

from __future__ import annotations

import collections
import re
import sys
import types
from typing import Any, Callable, Dict, Iterable, Tuple

from ._answers import Misused

HARMLESS = frozenset(("__orig_class__", "__version__"))
"""Names with underscores around them that Python doesn't read."""
_WRAPPED = 100
"""How many wrapped objects are followed."""
_EXPRESSION = re.compile(r"[\w., |\[\]]{0,1000}", re.ASCII)
"""Annotations that are evaluated without a call: names, in brackets and with bars."""
_PARTS = 1000
"""How many types annotations may have."""
_FUNCTIONS = (types.FunctionType, types.BuiltinFunctionType, types.MethodType, type)


def judge_attributes(receiver: Any, items: Iterable[Tuple[Any, Any]], is_set: bool) -> None:
    """Refuses attributes with which Python does more than hold them. `is_set`: whether they are set
    as they are, and aren't given to a method of the class, which may take any keys.
    """
    for key, value in items:
        name = key if type(key) is str else _name_of(key, is_set)
        if name is None or not name[:2] == "__" == name[-2:] or name in HARMLESS:
            continue
        judge = JUDGES.get(name)
        if judge is None or not judge(receiver, value):
            raise Misused(f"a state sets {name[:80]!r}, which has a meaning in Python")


def _name_of(key: Any, is_set: bool) -> Any:
    """The text that a key is equal to; None if it is equal to no text."""
    if is_set and isinstance(type(key).__eq__, types.FunctionType) and not _is_of_texts(key):
        raise Misused(f"a state has a {type(key).__name__} for a name")
    key = vars(key).get("data") if _is_of_texts(key) else key
    return str.__str__(key) if isinstance(key, str) else None


def _is_of_texts(key: Any) -> bool:
    return isinstance(key, collections.UserString)


def _is_text(receiver: Any, value: Any) -> bool:
    return value is None or type(value) is str


def _is_module(receiver: Any, value: Any) -> bool:
    """Whether this is no module that pickling the object again would import."""
    bases = type(receiver).__mro__[:-1]
    is_plain = not any(word in vars(it) for it in bases for word in ("__reduce__", "__reduce_ex__"))
    return value is None or type(value) is str and (is_plain or value in sys.modules)


def _is_wrapped(receiver: Any, value: Any) -> bool:
    """Whether what is wrapped isn't in a circle."""
    for _ in range(_WRAPPED):
        if value is receiver:
            return False
        if isinstance(value, _FUNCTIONS):
            return True
        held = getattr(value, "__dict__", None)
        if type(held) is not dict or "__wrapped__" not in held:
            return True
        value = held["__wrapped__"]
    return False


def _are_annotations(receiver: Any, value: Any) -> bool:
    """Whether evaluating these calls nothing."""
    if type(value) is not dict or not all(type(key) is str for key in value):
        return value is None
    left = list(value.values())
    for _ in range(_PARTS):
        if not left:
            return True
        part = left.pop()
        if type(part) is str and _EXPRESSION.fullmatch(part) is None:
            return False
        if type(part) is str or part is None or part is ... or isinstance(part, type):
            continue
        if type(part) not in (list, tuple) and type(part).__module__ not in ("typing", "types"):
            return False
        inside = part if type(part) in (list, tuple) else _arguments(part)
        left += inside[:_PARTS]
    return False


def _arguments(part: Any) -> Tuple[Any, ...]:
    """The types in one of `typing`, and its text."""
    return (*getattr(part, "__args__", ()), getattr(part, "__forward_arg__", None))


def _is_maker(receiver: Any, value: Any) -> bool:
    """Whether this is a function that makes annotations, which Python writes itself."""
    return value is None or (
        type(value) is types.FunctionType and value.__code__.co_name == "__annotate__"
    )


JUDGES: Dict[str, Callable[[Any, Any], bool]] = {
    "__doc__": _is_text,
    "__module__": _is_module,
    "__name__": _is_text,
    "__qualname__": _is_text,
    "__annotations__": _are_annotations,
    "__annotate__": _is_maker,
    "__wrapped__": _is_wrapped,
    "__type_params__": lambda receiver, value: type(value) is tuple,
}

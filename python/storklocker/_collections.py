"""Substitutes for the containers of the standard library: they are filled from plain containers."""

from __future__ import annotations

import collections
import functools
import types
from typing import TYPE_CHECKING, Any, Dict, Tuple

from ._calls import plain, takes_text, wrong
from ._objects import KINDS
from ._substitute import BECOMES_REAL, EMPTY, OF_ONE, Class, Remembering, Substitute
from ._weighing import keys_of

if TYPE_CHECKING:
    from ._reader import Reader


def _pairs(reader: Reader, name: str, given: Tuple[Any, ...]) -> Tuple[Any, ...]:
    """What a dict is made from: nothing, another dict, or pairs of keys and values."""
    if len(given) > 1:
        raise wrong(name)
    for it in given:
        rows = plain(reader, name, it)
        if type(it) is dict:
            keys_of(reader, rows)
            continue
        if type(it) not in (list, tuple):
            raise wrong(name)
        if any(type(row) not in (list, tuple) or len(row) != 2 for row in rows):
            raise wrong(name)
        keys_of(reader, [row[0] for row in rows])
    return given


def _dict(reader: Reader, *given: Any) -> Any:
    return dict(*_pairs(reader, "dict", given))


def _ordered(reader: Reader, *given: Any) -> Any:
    return collections.OrderedDict(*_pairs(reader, "OrderedDict", given))


_MAKERS = (*KINDS, types.MethodType, functools.partial, type(None))
"""The classes of what makes defaults. Another object may be called by whoever asks for a key, as a
signature of Celery, which runs a task.
"""


def _defaults(reader: Reader, *given: Any) -> Any:
    if given and not isinstance(given[0], _MAKERS):
        raise wrong("defaultdict")
    return collections.defaultdict(*given[:1], *_pairs(reader, "defaultdict", given[1:]))


def _counter(reader: Reader, *given: Any) -> Any:
    if len(given) > 1:
        raise wrong("Counter")
    for it in given:
        keys_of(reader, plain(reader, "Counter", it))
    return collections.Counter(*given)


def _deque(reader: Reader, *given: Any) -> Any:
    if len(given) > 2 or len(given) == 2 and type(given[1]) not in (int, type(None)):
        raise wrong("deque")
    return collections.deque(*(plain(reader, "deque", it) for it in given[:1]), *given[1:])


TABLE: Dict[Tuple[str, str], Substitute] = {
    (module, name): Remembering(f"{module}.{name}", judged, role | EMPTY)
    for module, name, judged, role in (
        ("builtins", "dict", _dict, BECOMES_REAL),
        ("collections", "OrderedDict", _ordered, BECOMES_REAL),
        ("collections", "defaultdict", _defaults, BECOMES_REAL | OF_ONE),
        ("collections", "Counter", _counter, BECOMES_REAL),
        ("collections", "deque", _deque, BECOMES_REAL),
    )
}
TABLE.update(
    (("collections", name), Class(f"collections.{name}", news=takes_text))
    for name in ("ChainMap", "UserDict", "UserList", "UserString")
)

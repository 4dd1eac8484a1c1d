"""The types of the arrays in a joblib file."""

from __future__ import annotations

from typing import Any, Tuple

from .following import Dict_, Made, NotFollowed

_DEEPEST = 8
_SIZES = {
    "b": (1,), "i": (1, 2, 4, 8), "u": (1, 2, 4, 8), "f": (2, 4, 8, 12, 16), "c": (8, 16, 24, 32),
    "M": (8,), "m": (8,),
}
"""The sizes of NumPy's plain types, by their letter."""
_HAS_OBJECTS = 1
"""The flag of a type with objects. It can lie, so it is compared with what its items have."""


DTYPE = ("numpy", "dtype")


def checked_item(kind: Any, depth: int = 0) -> Tuple[int, bool]:
    """The bytes of an item of this `numpy.dtype`, and whether it has objects. Each type is judged
    once, because types may share their fields.
    """
    if not isinstance(kind, Made) or kind.pair != DTYPE:
        raise NotFollowed("a type isn't written as NumPy writes it")
    if kind.judged is None:
        kind.judged = _checked(kind, depth)
    elif not depth and kind.state[2] is not None:
        raise NotFollowed("a type contradicts itself")
    found: Tuple[int, bool] = kind.judged
    return found


def _checked(kind: Made, depth: int) -> Tuple[int, bool]:
    words = kind.words
    if type(words) is not tuple or len(words) != 3 or type(words[0]) is not str:
        raise NotFollowed("a type isn't written as NumPy writes it")
    letter, digits = words[0][:1], words[0][1:]
    state = kind.state
    if depth > _DEEPEST or type(state) is not tuple or not 8 <= len(state) <= 9:
        raise NotFollowed(f"the type {words[0][:80]!r}")
    has_objects = letter == "O" and digits in ("", "4", "8")
    if has_objects or digits in map(str, _SIZES.get(letter, ())):
        if any(it is not None for it in state[2:5]):
            raise NotFollowed("a plain type with fields")
        size = 8 if has_objects else int(digits)
    else:
        if letter not in ("S", "U", "V") or not (digits.isdigit() and digits.isascii()):
            raise NotFollowed(f"the type {words[0][:80]!r}")
        size = int(digits) * (4 if letter == "U" else 1)
        if state[5] != size or (state[2] is not None and not depth):
            raise NotFollowed("a type contradicts itself")
        has_objects = _has_objects(state, depth)
    if type(state[7]) is not int or bool(state[7] & _HAS_OBJECTS) != has_objects:
        raise NotFollowed("the flags of a type contradict it")
    return size, has_objects


def _has_objects(state: Tuple[Any, ...], depth: int) -> bool:
    """Whether the items of a type, or its fields, have objects."""
    found = False
    if state[2] is not None:
        base = state[2][0] if type(state[2]) is tuple and state[2] else None
        found = checked_item(base, depth + 1)[1]
    if state[4] is not None:
        fields = state[4].items if isinstance(state[4], Dict_) else None
        if fields is None:
            raise NotFollowed("the fields of a type aren't known")
        for field in fields.values():
            if type(field) is not tuple or len(field) not in (2, 3):
                raise NotFollowed("a field of a type isn't as NumPy writes it")
            found = checked_item(field[0], depth + 1)[1] or found
    return found

"""What methods of texts, bytes, lists and dicts answer, and functions that put such together.
Nothing else is called, and nothing large comes of it.
"""

from __future__ import annotations

import array
import itertools
import operator
import re
import string
import struct
from typing import Any, Callable, Dict, List, Tuple

from .decoding import LARGEST, decoded, encoded, small
from .values import Unknown, are_plain

PARTS, _WORD, _BITS = 100_000, 256, 1 << 23
"""The most parts of a list, the most characters of a word that is looked for, and the most bits of
a number.
"""
_DIGITS = 4000
_PARTED = (str, bytes, list, tuple, dict, frozenset, range)
_SAME = frozenset(
    "strip lstrip rstrip lower upper swapcase title capitalize removeprefix removesuffix partition"
    " rpartition hex isalpha isdigit startswith endswith count find index".split()
)
"""Methods of texts and bytes that answer little more than these."""
_PERCENT = re.compile(r"(?:[^%]|%[scd%])*", re.DOTALL)


def short(data: Any) -> Any:
    """What has few parts."""
    if type(data) not in _PARTED or len(data) > PARTS:
        raise Unknown
    return data


def joined(it: Any, parts: Any) -> Any:
    """What `join` answers."""
    if len(it) * len(parts) + sum(map(len, parts)) > LARGEST:
        raise Unknown
    return it.join(parts)


def _replaced(it: Any, old: Any, new: Any, *most: int) -> Any:
    if (len(it) + 1) * (1 + len(new)) > LARGEST:
        raise Unknown
    return it.replace(old, new, *most)


def _translated(it: Any, table: Any, *dropped: bytes) -> Any:
    if type(table) is dict:
        longest = max((len(word) for word in table.values() if type(word) is str), default=1)
        if type(it) is str and longest * len(it) <= LARGEST:
            return it.translate(table)
    elif type(it) is bytes and (table is None or type(table) is bytes and len(table) == 256):
        return it.translate(table, *dropped)
    raise Unknown


def _expanded(it: Any, size: int = 8) -> Any:
    if not 0 <= size <= 16 or len(it) * size > LARGEST:
        raise Unknown
    return it.expandtabs(size)


def _split(name: str) -> Callable[..., Any]:
    return lambda it, *words: getattr(short(it), name)(*words)


def _formatted(it: str, words: Tuple[Any, ...], names: Dict[Any, Any]) -> str:
    """What `format` answers, without widths and attributes."""
    found: List[str] = []
    count = size = 0
    pieces: Any = string.Formatter().parse(it)
    for front, field, spec, kind in pieces:
        found.append(front)
        if field is None:
            continue
        if spec or kind not in (None, "s"):
            raise Unknown
        value = words[int(field or count)] if not field or field.isdigit() else names[field]
        count += not field
        found.append(_written(value))
        size += len(found[-1])
        if size > LARGEST:
            raise Unknown
    return "".join(found)


def _written(value: Any) -> str:
    if type(value) is str:
        return value
    if type(value) is int and value.bit_length() <= _DIGITS:
        return str(value)
    raise Unknown


def _percent(it: Any, given: Any) -> Any:
    """A text with `%s` in it."""
    words = given if type(given) is tuple else (given,)
    if type(it) is not str or not _PERCENT.fullmatch(it) or not set(map(type, words)) <= {str, int}:
        raise Unknown
    if sum(len(_written(word)) for word in words) + len(it) > LARGEST:
        raise Unknown
    return it % given


def _substituted(made: Tuple[Any, ...], words: Dict[str, Any]) -> str:
    text = made[0]
    longest = max((len(it) for it in words.values()), default=0)
    if text.count("$") * longest + len(text) > LARGEST:
        raise Unknown
    return string.Template(text).safe_substitute(words)


def added(one: Any, other: Any) -> Any:
    """A sum."""
    if type(one) is int and type(other) is int:
        return _number(one, other) + other
    if {type(one), type(other)} - {str, bytes, list, tuple}:
        raise Unknown
    return small(one + other)


def _number(*numbers: Any) -> Any:
    """The first of some numbers, none of which is too long."""
    if any(type(it) not in (int, bool) or it.bit_length() > _BITS for it in numbers):
        raise Unknown
    return numbers[0]


def _times(one: Any, other: Any) -> Any:
    if type(one) is int and type(other) is int:
        if one.bit_length() + other.bit_length() > _DIGITS:
            raise Unknown
        return one * other
    held, count = (other, one) if type(one) is int else (one, other)
    if type(held) not in (str, bytes, list, tuple) or len(held) * count > LARGEST:
        raise Unknown
    return short(held * count) if type(held) in (list, tuple) else held * count


def of_numbers(function: Callable[[int, int], int]) -> Callable[[Any, Any], int]:
    """A function of two numbers that answers nothing longer."""
    return lambda one, other: function(_number(one, other), other)


def modulo(one: Any, other: Any) -> Any:
    """The operator `%`."""
    return of_numbers(operator.mod)(one, other) if type(one) is int else _percent(one, other)


def item(held: Any, key: Any) -> Any:
    """An item, or a slice."""
    if type(held) not in (str, bytes, list, tuple, dict):
        raise Unknown
    return held[key]


def packed(form: Any, *words: Any) -> bytes:
    """What `struct.pack` answers."""
    if len(form) > _WORD or struct.calcsize(form) > LARGEST:
        raise Unknown
    return struct.pack(form, *words)


def _array(made: Tuple[Any, ...]) -> bytes:
    kind, values = made
    return array.array(kind, bytes(values) if type(values) is bytes else short(values)).tobytes()


def to_bytes(number: Any, length: int = 1, order: str = "big", *_: Any) -> bytes:
    """What `int.to_bytes` answers."""
    if length > LARGEST:
        raise Unknown
    found: bytes = _number(number).to_bytes(length, order)
    return found


def number_of(text: Any, *base: int) -> int:
    """What `int` answers."""
    if type(text) is str and len(text) > _DIGITS:
        raise Unknown
    return int(text, *base)


def read(made: Tuple[Any, ...], size: Any = -1) -> Any:
    """What is read of a stream in memory, if that is all of it."""
    data = made[0] if made else b""
    if size not in (None, -1) and size < len(data):
        raise Unknown  # (it isn't known what was read before)
    return data


METHODS: Dict[str, Callable[..., Any]] = {
    "decode": decoded, "encode": encoded, "join": joined, "replace": _replaced,
    "translate": _translated, "expandtabs": _expanded, "split": _split("split"),
    "rsplit": _split("rsplit"), "splitlines": _split("splitlines"),
    "format": lambda it, *words: _formatted(it, words, {}),
    "format_map": lambda it, names: _formatted(it, (), names),
    "fromhex": lambda _, text: bytes.fromhex(text), "tobytes": lambda it: bytes(it),
    "__getitem__": item, "__add__": added, "__mul__": _times, "__mod__": _percent,
    "get": lambda it, key, *other: it.get(key, *other),
    "pop": lambda it, *key: it[key[0] if key else -1],
    "values": lambda it: list(it.values()), "keys": list, "copy": lambda it: it,
    "__str__": lambda it: it, "__reversed__": lambda it: short(it)[::-1],
}
TABLES: Dict[str, Callable[..., Any]] = {
    "builtins.str.maketrans": str.maketrans, "builtins.bytes.maketrans": bytes.maketrans,
    "builtins.bytearray.maketrans": bytes.maketrans,
    "operator.add": added, "operator.concat": added, "operator.iadd": added,
    "operator.iconcat": added, "operator.getitem": item, "operator.mul": _times,
    "operator.mod": modulo, "operator.xor": of_numbers(operator.xor),
    "operator.and_": of_numbers(operator.and_), "operator.or_": of_numbers(operator.or_),
    "operator.sub": of_numbers(operator.sub), "struct.pack": packed,
    "builtins.slice": slice, "builtins.int": number_of, "builtins.int.to_bytes": to_bytes,
    "builtins.int.from_bytes": lambda data, order="big", *_: int.from_bytes(small(data), order),
    "builtins.ord": ord, "builtins.chr": chr, "builtins.len": len,
}
"""Functions by their names."""
OBJECTS: Dict[str, Callable[..., Any]] = {
    "io.BytesIO().read": read, "io.StringIO().read": read,
    "io.BytesIO().getvalue": read, "io.StringIO().getvalue": read,
    "io.BytesIO().getbuffer": read,
    "array.array().tobytes": _array, "string.Template().substitute": _substituted,
    "string.Template().safe_substitute": _substituted,
}
"""Methods of what classes make, which take the arguments of both."""


def of_method(held: Any, name: str, words: List[Any]) -> Any:
    """What a method of something plain answers."""
    if type(held) not in (str, bytes, list, tuple, dict):
        raise Unknown
    is_any = name in ("join", "__add__", "fromhex", "translate", "format", "__mod__", "format_map")
    if not is_any and any(len(it) > _WORD for it in words if type(it) in (str, bytes)):
        raise Unknown  # (to look for it may take long)
    if not are_plain(words):
        raise Unknown
    if name in _SAME:
        return getattr(held, name)(*words)
    if name not in METHODS:
        raise Unknown
    return METHODS[name](held, *words)


def flat(parts: Any) -> List[Any]:
    """The items of some lists or texts, one after another."""
    if sum(len(short(it)) for it in short(parts)) > PARTS:
        raise Unknown
    return list(itertools.chain.from_iterable(parts))

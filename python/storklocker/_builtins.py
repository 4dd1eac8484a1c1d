"""Substitutes for names of the standard library that picklers call in one way only."""

from __future__ import annotations

import copyreg
from typing import TYPE_CHECKING, Any, Dict, Tuple

from ._answers import Misused
from ._substitute import BECOMES_REAL, IS_JUDGED, Remembering, Substitute

if TYPE_CHECKING:
    from ._reader import Reader

_CODECS = ("latin1", "latin-1", "ascii", "utf-8")


def _bytes(*given: Any) -> bytes:
    """`bytes` of bytes or of nothing, not of a length."""
    if given and (len(given) > 1 or not isinstance(given[0], (bytes, bytearray))):
        raise Misused("bytes is called with unexpected arguments")
    return bytes(*given)


def _bytearray(*given: Any) -> bytearray:
    """`bytearray` of bytes, of a text or of nothing, not of a length."""
    is_text = len(given) == 2 and type(given[0]) is type(given[1]) is str and given[1] in _CODECS
    is_data = len(given) == 1 and isinstance(given[0], (bytes, bytearray))
    if given and not (is_text or is_data):
        raise Misused("bytearray is called with unexpected arguments")
    return bytearray(*given)


def _encode(*given: Any) -> bytes:
    """`_codecs.encode` of a text by a codec that takes linear time."""
    if list(map(type, given)) != [str, str] or given[1] not in _CODECS:
        raise Misused("_codecs.encode is called with unexpected arguments")
    text, codec = given
    made: bytes = text.encode(codec)
    return made


def _reconstructor(reader: Reader, *given: Any) -> Any:
    """`copyreg._reconstructor`: an object of a class, made of a value of its base class."""
    if len(given) != 3:
        raise Misused("_reconstructor is called with unexpected arguments")
    kind, base, value = given
    is_class = isinstance(kind, type) and isinstance(base, type) and issubclass(kind, base)
    if not is_class or not (value is None if base is object else type(value) is base):
        raise Misused("_reconstructor is called with unexpected arguments")
    if isinstance(value, (tuple, frozenset)):  # (which is hashed with all that it has)
        reader.keys.weigh(value)
    reconstructor: Any = getattr(copyreg, "_reconstructor")
    made = reconstructor(kind, base, value)
    if f"{kind.__module__}.{kind.__qualname__}" in _STATE_FOLLOWS:
        reader.unbuilt[id(made)] = made
    return made


_STATE_FOLLOWS = frozenset(
    f"pandas.core.internals.managers.{name}" for name in ("BlockManager", "SingleBlockManager")
)
"""Classes whose objects are empty until their state is set."""
TABLE: Dict[Tuple[str, str], Substitute] = {
    ("builtins", "bytes"): Substitute("builtins.bytes", _bytes, BECOMES_REAL),
    ("builtins", "bytearray"): Substitute("builtins.bytearray", _bytearray, BECOMES_REAL),
    ("_codecs", "encode"): Substitute("_codecs.encode", _encode),
    ("copyreg", "_reconstructor"): Remembering(
        "copyreg._reconstructor", _reconstructor, IS_JUDGED
    ),
}

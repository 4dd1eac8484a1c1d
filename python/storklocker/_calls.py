"""Substitutes for classes of the standard library whose calls take time or memory by a number or a
text. They take what picklers give: numbers and texts within bounds, and plain containers, which the
pickle has filled itself.
"""

from __future__ import annotations

import array
from typing import TYPE_CHECKING, Any, Callable, Dict, Tuple

from ._answers import Misused
from ._facts import SUBSTITUTED
from ._substitute import (
    BECOMES_REAL, EMPTY, IS_JUDGED, NEW_OF_NONE, OF_NONE, OF_TEXT, OF_TEXTS, Class, Remembering,
    Substitute,
)
from ._weighing import CONTAINERS, SCALARS, keys_of, values

if TYPE_CHECKING:
    from ._reader import Reader

DIGITS, BITS = 4_300, 1 << 15
"""The most digits of a number that is written as a text, as CPython has it, and bits of another."""


def wrong(name: str) -> Misused:
    """The error for arguments that no pickler gives."""
    return Misused(f"{name} is called with unexpected arguments")


def takes_text(reader: Reader, name: str, given: Tuple[Any, ...]) -> None:
    """Has NEWOBJ take nothing, or the text of a class of texts."""
    if given and (len(given) > 1 or type(given[0]) not in (str, bytes)):
        raise wrong(name)
    reader.pay(sum(map(len, given)))


def takes_row(reader: Reader, name: str, given: Tuple[Any, ...]) -> None:
    """Has NEWOBJ take nothing, or the items of a class of tuples."""
    if given and (len(given) > 1 or type(given[0]) not in (list, tuple)):
        raise wrong(name)
    reader.pay(sum(map(len, given)) * 16)
    takes_fields(reader, name, tuple(it for row in given for it in row))


def takes_fields(reader: Reader, name: str, given: Tuple[Any, ...]) -> None:
    """Has NEWOBJ take the fields of a named tuple, which is hashed with all that they have."""
    reader.keys.weigh(given)


def plain(reader: Reader, name: str, given: Any) -> Any:
    """A container or a text that the pickle has written, of which a copy is made."""
    if type(given) not in CONTAINERS and type(given) not in (str, bytes, bytearray):
        raise wrong(name)
    reader.pay(16 * len(given))
    return given


def _whole(name: str, given: Any, bits: int = 4096) -> int:
    if type(given) not in (int, bool) or given.bit_length() > bits:
        raise wrong(name)
    number: int = given
    return number


def _text(name: str, given: Any, most: int) -> str:
    if type(given) is not str or len(given) > most:
        raise wrong(name)
    return given


def _set(kind: Any) -> Callable[..., Any]:
    def judged(reader: Reader, *given: Any) -> Any:
        if len(given) > 1:
            raise wrong(kind.__name__)
        for it in given:
            keys_of(reader, plain(reader, kind.__name__, it))
        return kind(*given)

    return judged


def _list(reader: Reader, *given: Any) -> Any:
    if len(given) > 1:
        raise wrong("list")
    return [*plain(reader, "list", given[0])] if given else []


def _tuple(reader: Reader, *given: Any) -> Any:
    made = tuple(_list(reader, *given))
    reader.keys.weigh(made)
    return made


def _int(reader: Reader, *given: Any) -> int:
    if given and type(given[0]) in (str, bytes):
        if len(given[0]) > DIGITS or len(given) > 2:
            raise wrong("int")
        return int(given[0], *(_whole("int", base) for base in given[1:]))
    if len(given) > 1 or given and type(given[0]) not in (int, bool, float):
        raise wrong("int")
    return int(*given)


def _complex(reader: Reader, *given: Any) -> complex:
    for it in given:
        if type(it) is int:
            _whole("complex", it)
        elif type(it) is str:
            _text("complex", it, DIGITS)
        elif type(it) not in (float, complex, bool):
            raise wrong("complex")
    return complex(*given)


def _range(reader: Reader, *given: Any) -> range:
    return range(*(_whole("range", it) for it in given))


def _slice(reader: Reader, *given: Any) -> slice:
    """A slice of numbers or labels. One in another is freed with it, however many there are."""
    if any(isinstance(it, (slice, *CONTAINERS)) for it in given):
        raise wrong("slice")
    return slice(*given)


def _array(reader: Reader, *given: Any) -> Any:
    if len(given) not in (1, 2) or type(given[0]) is not str or len(given[0]) != 1:
        raise wrong("array")
    return array.array(given[0], *(plain(reader, "array", it) for it in given[1:]))


def _array_reconstructor(reader: Reader, *given: Any) -> Any:
    if len(given) != 4 or not isinstance(given[0], type) or not issubclass(given[0], array.array):
        raise wrong("_array_reconstructor")
    is_said = type(given[1]) is str and type(given[2]) is int and type(given[3]) is bytes
    if not is_said or len(given[1]) != 1 or not 0 <= given[2] < 64:
        raise wrong("_array_reconstructor")
    reader.pay(8 * len(given[3]))
    maker: Any = getattr(array, "_array_reconstructor")
    return maker(*given)


def _decimal(reader: Reader, *given: Any) -> Any:
    from decimal import Decimal

    if len(given) > 1 or given and type(given[0]) not in (str, int, bool, float, Decimal):
        raise wrong("Decimal")
    if given and type(given[0]) in (int, bool):
        _whole("Decimal", given[0], BITS)
    elif given and type(given[0]) is str:
        reader.pay(4 * len(given[0]))
    return Decimal(*given)


def _fraction(reader: Reader, *given: Any) -> Any:
    """A fraction of whole numbers. One of a text with an exponent is a power of ten."""
    from fractions import Fraction

    if len(given) > 2:
        raise wrong("Fraction")
    for it in given:
        if type(it) is str and len(given) == 1:
            if "e" in _text("Fraction", it, 2 * DIGITS + 2).lower():
                raise wrong("Fraction")
            reader.pay(len(it) ** 2 // 256)
        else:
            reader.pay(_whole("Fraction", it, BITS).bit_length() ** 2 // 1024)
    return Fraction(*given)


_SIGNALS = 100


def _context(reader: Reader, *given: Any) -> Any:
    """A context of decimal: numbers, how to round, and few signals in lists."""
    import decimal

    if len(given) > 8 or any(
        type(it) not in (int, str, type(None)) and not (type(it) is list and len(it) <= _SIGNALS)
        for it in given
    ):
        raise wrong("Context")
    return decimal.Context(*given)


def _namespace(*given: Any) -> Any:
    import types

    if given:  # (since Python 3.13 it copies a dict)
        raise wrong("SimpleNamespace")
    return types.SimpleNamespace()


def _address(name: str) -> Callable[..., Any]:
    def judged(reader: Reader, *given: Any) -> Any:
        import ipaddress

        if len(given) != 1:
            raise wrong(name)
        if type(given[0]) is not str and not (type(given[0]) is bytes and len(given[0]) in (4, 16)):
            _whole(name, given[0], 128)
        elif len(given[0]) > 200:
            raise wrong(name)
        return vars(ipaddress)[name](given[0])

    return judged


def _uuid(*given: Any) -> Any:
    import uuid

    if len(given) != 1:
        raise wrong("UUID")
    return uuid.UUID(_text("UUID", given[0], 100))


def _path(name: str) -> Callable[..., Any]:
    def judged(reader: Reader, *given: Any) -> Any:
        import pathlib

        if any(type(it) is not str for it in given):
            raise wrong(name)
        reader.pay(sum(map(len, given)))
        return vars(pathlib)[name](*given)

    return judged


def _of_time(name: str) -> Callable[..., Any]:
    """A class of datetime. Before Python 3.10 it takes a number of decimal for a whole one, and has
    all its digits computed.
    """
    def judged(reader: Reader, *given: Any) -> Any:
        import datetime

        if any(not isinstance(it, datetime.tzinfo) and type(it) not in SCALARS for it in given):
            raise wrong(name)
        return vars(datetime)[name](*given)

    return judged


def shown(module: str, name: str) -> Remembering:
    """A function that shows its arguments, or looks through them: only values that aren't large."""
    def judged(reader: Reader, *given: Any) -> Any:
        values(reader, given)
        return made.real()(*given)

    made = Remembering(f"{module}.{name}", judged, BECOMES_REAL | IS_JUDGED)
    return made


def _copying(module: str, name: str, count: int, kinds: Tuple[type, ...]) -> Remembering:
    """An exception that, called with so many arguments, copies the second unless it is bytes."""
    def judged(reader: Reader, *given: Any) -> Any:
        if len(given) == count:
            if type(given[1]) not in kinds:
                raise wrong(name)
            reader.pay(0 if type(given[1]) is bytes else len(given[1]))
        return made.real()(*given)

    made = Remembering(f"{module}.{name}", judged, BECOMES_REAL | IS_JUDGED)
    return made


def row(
    module: str, name: str, judged: Callable[..., Any], role: int = 0
) -> Tuple[Tuple[str, str], Substitute]:
    return (module, name), Remembering(f"{module}.{name}", judged, BECOMES_REAL | role)


_ADDRESSES = "IPv4Address IPv6Address IPv4Network IPv6Network IPv4Interface IPv6Interface".split()
_PATHS = "PurePath PurePosixPath PureWindowsPath Path PosixPath WindowsPath".split()
_SHOWN = {
    "configparser": "Error NoSectionError DuplicateSectionError DuplicateOptionError NoOptionError"
    " InterpolationError InterpolationMissingOptionError InterpolationSyntaxError"
    " InterpolationDepthError ParsingError MissingSectionHeaderError MultilineContinuationError"
    " UnnamedSectionDisabledError InvalidWriteError",
    "json.decoder": "JSONDecodeError",
    "asyncio.exceptions": "IncompleteReadError LimitOverrunError",
}
_COPYING: Dict[Tuple[str, str], Tuple[int, Tuple[type, ...]]] = {
    ("builtins", "BaseExceptionGroup"): (2, (list, tuple)),
    ("builtins", "ExceptionGroup"): (2, (list, tuple)),
    ("builtins", "IndentationError"): (2, (list, tuple)),
    ("builtins", "SyntaxError"): (2, (list, tuple)),
    ("builtins", "TabError"): (2, (list, tuple)),
    ("builtins", "_IncompleteInputError"): (2, (list, tuple)),
    ("builtins", "UnicodeDecodeError"): (5, (bytes, bytearray)),
    ("xml.etree.ElementTree", "ParseError"): (2, (list, tuple)),
}

TABLE: Dict[Tuple[str, str], Substitute] = dict(
    [
        row("builtins", "set", _set(set), EMPTY),
        row("builtins", "frozenset", _set(frozenset), EMPTY),
        row("builtins", "list", _list, EMPTY),
        row("builtins", "tuple", _tuple, EMPTY),
        row("builtins", "int", _int, EMPTY),
        row("builtins", "complex", _complex, EMPTY),
        row("builtins", "range", _range),
        row("builtins", "slice", _slice),
        row("array", "array", _array),
        row("array", "_array_reconstructor", _array_reconstructor),
        row("decimal", "Context", _context),
        row("decimal", "Decimal", _decimal, OF_NONE | OF_TEXT),
        row("fractions", "Fraction", _fraction),
        *(row("ipaddress", name, _address(name)) for name in _ADDRESSES),
        *(
            row(at, name, _path(name), OF_TEXTS)
            for name in _PATHS
            for at in ("pathlib", "pathlib._local")
        ),
        *(((at, name), shown(at, name)) for at in _SHOWN for name in _SHOWN[at].split()),
        *((pair, _copying(*pair, *how)) for pair, how in _COPYING.items()),
        *(row("datetime", name, _of_time(name)) for name in SUBSTITUTED["datetime"].split()),
        (("decimal", "DecimalTuple"), Class("decimal.DecimalTuple", news=takes_fields)),
        (("types", "SimpleNamespace"), Class(
            "types.SimpleNamespace", call=_namespace, role=EMPTY)),
        (("uuid", "UUID"), Class("uuid.UUID", call=_uuid, role=OF_TEXT | NEW_OF_NONE)),
    ]
)

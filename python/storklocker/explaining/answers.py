"""What calls answer whose arguments are known: decoders, methods of plain values, ways to names."""

from __future__ import annotations

import io
import itertools
import zipfile
from typing import Any, Callable, Dict, Iterable, List, Tuple

from ..scanning.unpacking import bzip2
from .decoding import DECODERS, LARGEST, decoded, lzma_unpacker, small, unpacked, unzipped
from .marshalled import Code, NotRead, code_in
from .texts import METHODS, OBJECTS, TABLES, flat, item, of_method, short
from .values import (
    HIDDEN, Asking, Compiled, Made, Method, Named, Partial, Unknown, are_plain, data_of, name_of
)

CALLER = "operator.call"
Apply = Callable[[Any, List[Any]], Any]
"""Calls a function, and counts what that costs."""
_IMPORTERS = frozenset(
    "builtins.__import__ importlib.import_module importlib.__import__ importlib.reload"
    " importlib._bootstrap._gcd_import pydoc.locate pkgutil.resolve_name pydoc.safeimport".split()
)
_KINDS = ("builtins.str", "builtins.bytes", "builtins.bytearray", "builtins.list", "builtins.dict")
_WAYS = ("__getattribute__", "__getattr__")


def answered(function: Any, words: List[Any], apply: Apply) -> Any:
    """What a call answers. Raises Unknown."""
    kind = type(function)
    if kind is Asking:
        return _asked(words[0], function, apply)
    if kind is Method and type(function.held) is not Made:
        return _of_method(function.held, function.name, words)
    name = name_of(function)
    if not name or kind is Named and name in _GIVEN:
        raise Unknown
    if kind is not Named:
        return _of_object(function, name, words)
    if name in _FUNCTIONS:
        return _FUNCTIONS[name](apply, *words)
    if name in _IMPORTERS and type(words[0]) is str:
        head = words[0].partition(".")[0]
        is_head = name == "builtins.__import__" and not words[3:]
        return Named(head if is_head else words[0].replace(":", "."))
    plain = list(map(data_of, words))
    if name in _PLAIN and are_plain(plain):
        return _PLAIN[name](*plain)
    return _of_name(*name.rpartition(".")[::2], words)


def may_change(answer: Any) -> bool:
    """Whether a call that answers this may change a list that it was given."""
    if type(answer) is Method and type(answer.held) is not Made:
        return answer.name not in METHODS or answer.name == "pop"
    return type(answer) is Made or answer is HIDDEN


def _of_name(head: str, last: str, words: List[Any]) -> Any:
    """What a method of a class answers, or of a module."""
    if last in _WAYS:
        held = [Named(head), *words] if len(words) == 1 else words
        return _attribute(held[0], held[1])
    if head.endswith(".__dict__") and last in ("get", "__getitem__"):
        return _in_module(Named(head), words[0])
    if head not in _KINDS:
        raise Unknown
    held, *words = [b"", *words] if last == "fromhex" else words
    return of_method(held, last, words)


def _of_method(held: Any, name: str, words: List[Any]) -> Any:
    """What a method of a value answers."""
    if type(held) is Named:
        return _of_name(held.name, name, words)
    if type(held) is int and name == "to_bytes":
        return TABLES["builtins.int.to_bytes"](held, *words)
    return of_method(held, name, words)


def _of_object(function: Any, name: str, words: List[Any]) -> Any:
    """What a method answers of something that a class has made, or what that answers itself."""
    made = function.held if type(function) is Method else function
    given, plain = tuple(map(data_of, made.words)), list(map(data_of, words))
    is_item = name == "operator.itemgetter()"
    if name not in _METHODS or not are_plain(given) or not (is_item or are_plain(plain)):
        raise Unknown
    return _METHODS[name](given, *plain)


def _asked(held: Any, asking: Asking, apply: Apply) -> Any:
    """An attribute, or what a method answers."""
    for name in asking.names:
        held = _attribute(held, name)
    return held if asking.words is None else apply(held, list(asking.words))


def _attribute(held: Any, name: str) -> Any:
    if type(name) is not str:
        raise Unknown
    if type(held) is Named:
        return Named(f"{held.name}.{name}")
    if type(held) in (str, bytes, list, tuple, dict, int, Made, Method):
        return Method(held, name)
    raise Unknown


def _in_module(held: Any, key: Any) -> Any:
    """An item of `sys.modules`, or of the `__dict__` of a module."""
    head = held.name[: -len(".__dict__")] if held.name.endswith(".__dict__") else ""
    if type(key) is not str or not head and held.name != "sys.modules":
        raise Unknown
    return Named(f"{head}.{key}" if head else key)


def _item(held: Any, key: Any) -> Any:
    return _in_module(held, key) if type(held) is Named else item(held, key)


# ---- code


def code_of(data: bytes) -> Any:
    """Code that is marshalled, or what is said of it."""
    try:
        return code_in(data)
    except NotRead:
        return f"code of {len(data):,} bytes, not read"


def _code_made(*words: Any) -> Compiled:
    """What the arguments of CodeType say."""
    place = next((at for at, it in enumerate(words) if type(it) is bytes), -1)
    if place < 0 or len(words) < place + 5:
        raise Unknown
    constants, names = words[place + 1], words[place + 2]
    if type(constants) is not tuple or type(names) is not tuple:
        raise Unknown
    names = tuple(it for it in names if type(it) is str)
    texts = [it for it in words[place + 3 :] if type(it) is str]
    return Compiled(Code("code", texts[-1] if texts else "?", names, constants))


def _text(data: Any = "", coding: str = "", *_: Any) -> Any:
    return str(data) if type(data) is str else decoded(data, coding)


def _bytes(data: Any = b"", *coding: str) -> Any:
    if type(data) is str:
        return METHODS["encode"](data, *coding)
    if type(data) not in (bytes, list, tuple):
        raise Unknown
    return bytes(data)


# ---- functions of functions


def _mapped(apply: Apply, function: Any, *parts: Any) -> List[Any]:
    if all(type(it) is Made for it in parts):
        raise Unknown
    return [apply(function, list(words)) for words in zip(*map(_repeated, parts))]


def _repeated(it: Any) -> Iterable[Any]:
    """What is mapped, or what `itertools.cycle` repeats without an end."""
    if type(it) is not Made:
        found: Iterable[Any] = short(it)
        return found
    if name_of(it.function) != "itertools.cycle":
        raise Unknown
    return itertools.cycle(short(it.words[0]))


def _starmapped(apply: Apply, function: Any, parts: Any) -> List[Any]:
    return [apply(function, list(words)) for words in short(parts)]


def _filtered(apply: Apply, function: Any, parts: Any) -> List[Any]:
    if function is not None:
        raise Unknown
    return [it for it in short(parts) if it]


def _reduced(apply: Apply, function: Any, parts: Any, *first: Any) -> Any:
    left = iter(short(parts))
    found = first[0] if first else next(left)
    for it in left:
        found = apply(function, [found, it])
    return found


def _summed(apply: Apply, parts: Any, *first: Any) -> Any:
    if first and type(first[0]) in (list, tuple):
        return type(first[0])(flat([first[0], *parts]))
    return sum(TABLES["builtins.int"](it) for it in short(parts))


_FUNCTIONS: Dict[str, Callable[..., Any]] = {
    "builtins.getattr": lambda _, held, name, *other: _attribute(held, name),
    "inspect.getattr_static": lambda _, held, name, *other: _attribute(held, name),
    "builtins.object.__getattribute__": lambda _, held, name: _attribute(held, name),
    "builtins.vars": lambda _, held: _attribute(held, "__dict__"),
    "builtins.map": _mapped, "itertools.starmap": _starmapped, "builtins.filter": _filtered,
    "functools.reduce": _reduced, "builtins.sum": _summed,
    "operator.getitem": lambda _, held, key: _item(held, key),
    "functools.partial": lambda _, function, *words: Partial(function, words),
    "operator.methodcaller": lambda _, name, *words: Asking((name,), words),
    "operator.attrgetter": lambda _, name: Asking(tuple(name.split(".")), None),
    "marshal.loads": lambda _, data: Compiled(code_of(data)),
    "builtins.compile": lambda _, code, *words: Compiled(code),
    **dict.fromkeys(
        ("types.FunctionType", "types.LambdaType", "builtins.function"),
        lambda _, code, *words: code,
    ),
    **dict.fromkeys(
        ("types.CodeType", "builtins.code"), lambda _, *words: _code_made(*words)
    ),
}
_PLAIN: Dict[str, Callable[..., Any]] = {
    **DECODERS, **TABLES,
    "builtins.str": _text, "builtins.bytes": _bytes, "builtins.bytearray": _bytes,
    "builtins.memoryview": bytes, "builtins.list": lambda it=(): list(short(it)),
    "builtins.tuple": lambda it=(): tuple(short(it)), "builtins.iter": lambda it: list(short(it)),
    "builtins.reversed": lambda it: list(short(it))[::-1],
    "builtins.sorted": lambda it: sorted(short(it)),
    "builtins.zip": lambda *parts: list(zip(*map(short, parts))),
    "builtins.range": lambda *words: list(short(range(*words))),
    "builtins.enumerate": lambda it: list(enumerate(short(it))),
    "itertools.chain": lambda *parts: flat(parts), "itertools.chain.from_iterable": flat,
    "itertools.islice": lambda it, *words: list(itertools.islice(short(it), *words)),
}
_GIVEN = frozenset(("io.BytesIO", "io.StringIO"))
"""Classes whose instances are named by what they were given."""


# ---- what classes make


def _of_zip(made: Tuple[Any, ...], name: str, *_: Any) -> bytes:
    """A member of a zip, of those that are stored or deflated."""
    with zipfile.ZipFile(io.BytesIO(made[0])) as archive:
        it = archive.getinfo(name)
        if it.compress_type not in (zipfile.ZIP_STORED, zipfile.ZIP_DEFLATED):
            raise Unknown
        with archive.open(it) as member:
            found: bytes = small(member.read(LARGEST + 1))
    return found


def _of_gzip(made: Tuple[Any, ...], *_: Any) -> Any:
    data = next(it for it in made if type(it) is bytes)
    return unzipped(data, 31)


def _unpacker(make: Callable[[], Any]) -> Callable[..., Any]:
    unpack = unpacked(make)
    return lambda made, data, *_: unpack(data)


def _first(make: Callable[[], Any]) -> Callable[..., Any]:
    unpack = unpacked(make)
    return lambda made, *_: unpack(made[0])


def _items(made: Tuple[Any, ...], held: Any) -> Any:
    found = [_item(held, key) for key in made]
    return found[0] if len(found) == 1 else tuple(found)


def _of_codec(made: Tuple[Any, ...], data: Any, *_: Any) -> Tuple[Any, int]:
    return decoded(data, made[0]), len(data)


_METHODS: Dict[str, Callable[..., Any]] = {
    **OBJECTS,
    "zlib.decompressobj().decompress": lambda made, data, *_: unzipped(data, *made),
    "bz2.BZ2Decompressor().decompress": _unpacker(bzip2),
    "lzma.LZMADecompressor().decompress": _unpacker(lzma_unpacker),
    "bz2.BZ2File().read": _first(bzip2), "lzma.LZMAFile().read": _first(lzma_unpacker),
    "gzip.GzipFile().read": _of_gzip, "zipfile.ZipFile().read": _of_zip,
    "operator.itemgetter()": _items, "codecs.getdecoder()": _of_codec,
    "codecs.lookup().decode": _of_codec,
}

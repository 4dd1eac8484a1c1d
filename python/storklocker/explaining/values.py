"""The values that calls are known to answer, besides plain ones."""

from __future__ import annotations

from typing import Any, Iterable, List, NamedTuple, Optional, Tuple

from .brief import Brief

STREAM = "io.BytesIO"


class Unknown(Exception):
    """It isn't known what something answers."""


class Large(Unknown):
    """It is more than is opened."""


class Spent(Exception):
    """There is too much to open."""


class Named(NamedTuple):
    """A module, a class or a function, by its dotted name."""

    name: str


class Method(NamedTuple):
    """A method of something."""

    held: Any
    name: str


class Partial(NamedTuple):
    """A function with some arguments."""

    function: Any
    words: Tuple[Any, ...]


class Asking(NamedTuple):
    """What asks its argument for attributes, or calls a method of it."""

    names: Tuple[str, ...]
    words: Optional[Tuple[Any, ...]]


class Compiled(NamedTuple):
    """Code, or a function of it, with the text of it if that is known."""

    code: Any


class Made(NamedTuple):
    """What a call answers that isn't done here."""

    function: Any
    words: Tuple[Any, ...]


class _Hidden:
    """A value that isn't plain."""


HIDDEN = _Hidden()
_OWN = frozenset((Named, Method, Partial, Asking, Compiled, Made, _Hidden))


def are_plain(words: Iterable[Any]) -> bool:
    """Whether these are values of Python."""
    return all(type(it) not in _OWN for it in words)


def name_of(function: Any) -> str:
    """The dotted name of a function; empty if it has none. What a class makes has a pair of
    brackets in it.
    """
    if type(function) is Named:
        return function.name
    if type(function) is Made:
        name = name_of(function.function)
        return name and f"{name}()"
    if type(function) is Method:
        kind = type(function.held)
        name = f"builtins.{kind.__name__}" if kind in (str, bytes) else name_of(function.held)
        return name and f"{name}.{function.name}"
    return ""


def data_of(value: Any) -> Any:
    """The bytes that a stream of them has, or the value."""
    is_stream = type(value) is Made and name_of(value.function) == STREAM and value.words
    return value.words[0] if is_stream else value


def text_of(value: Any) -> str:
    """A value in a few characters."""
    return Brief(_parts).text(value)


def _parts(value: Any) -> Tuple[Any, ...]:
    """A value that isn't plain, as texts and values: texts at even places."""
    kind = type(value)
    if kind is Named:
        return (value.name,)
    if kind is Method:
        return "", value.held, f".{value.name}"
    if kind is Compiled:
        return "compile(", value.code, ")"
    if kind is Asking:
        function = "operator.attrgetter" if value.words is None else "operator.methodcaller"
        return _called(function, (".".join(value.names), *(value.words or ())))
    if kind is Partial:
        return _called("functools.partial", (value.function, *value.words))
    if kind is Made:
        return ("", value.function, *_called("", value.words))
    return ("...",)


def _called(function: str, words: Tuple[Any, ...]) -> Tuple[Any, ...]:
    """A call of a function."""
    found: List[Any] = [f"{function}("]
    for it in words:
        found += (it, ", ")
    if words:
        found[-1] = ")"
    else:
        found[-1] += ")"
    return tuple(found)

"""Values in a few characters, however they are shared."""

from __future__ import annotations

from typing import Any, Callable, Dict, Iterator, List, Tuple

_WIDTH, _ITEMS, _DEEPEST, _ROOM, _BITS = 400, 12, 8, 2000, 4096
"""The most characters of a text, items of a collection, brackets around one another, characters of
all, and bits of a number.
"""
_BRACKETS: Dict[Any, Tuple[str, str]] = {
    list: ("[", "]"), tuple: ("(", ")"), set: ("{", "}"), frozenset: ("{", "}"), dict: ("{", "}"),
}
_SHOWN = (int, float, complex, bool, type(None), type(Ellipsis))


def brief(value: Any) -> str:
    """A plain value as it is written, or cut."""
    return Brief(lambda it: ("...",)).text(value)


class Brief:
    """Writes values. `parts` says how one is written that isn't plain: as texts, and values at odd
    places.
    """

    def __init__(self, parts: Callable[[Any], Tuple[Any, ...]], room: int = _ROOM) -> None:
        self._others, self._room = parts, room

    def text(self, value: Any) -> str:
        """A value as it is written, or cut."""
        return "".join(self._pieces(value, 0))

    def _pieces(self, value: Any, depth: int) -> Iterator[str]:
        if self._room < 0 or depth > _DEEPEST:
            yield "..."
            return
        kind: Any = type(value)
        if kind in _BRACKETS:
            yield from self._collected(value, kind, depth)
        elif kind in (str, bytes) or kind in _SHOWN:
            text = _plain(value, kind)
            self._room -= len(text)
            yield text
        else:
            for place, part in enumerate(self._others(value)):
                if place % 2:
                    yield from self._pieces(part, depth + 1)
                else:
                    self._room -= len(part)
                    yield part

    def _collected(self, value: Any, kind: Any, depth: int) -> Iterator[str]:
        front, end = _BRACKETS[kind]
        yield front
        for place, it in enumerate(value):
            if place:
                yield ", "
            if place == _ITEMS or self._room < 0:
                yield f"... {len(value) - place:,} more"
                break
            yield from self._pieces(it, depth + 1)
            if kind is dict:
                yield ": "
                yield from self._pieces(value[it], depth + 1)
        yield f",{end}" if kind is tuple and len(value) == 1 else end


def _plain(value: Any, kind: Any) -> str:
    if kind in (str, bytes):
        more = f"... {len(value) - _WIDTH:,} more" if len(value) > _WIDTH else ""
        return f"{value[:_WIDTH]!r}{more}"
    if kind is int and value.bit_length() > _BITS:
        return f"a number of {value.bit_length():,} bits"
    return repr(value)

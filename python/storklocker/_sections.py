"""What the section `[substitutes]` of a list file says, which only this package loads with."""

from __future__ import annotations

import re
from typing import Any, Callable, Dict, Iterable, Iterator, List, Optional, Set, Tuple

from . import substitutes
from ._answers import ListFault

Said = Tuple[Dict[str, Any], Set[str]]
"""The substitutes, and the names that are meant to be dangerous."""

_FAULT = "Substitutes"
_PLAIN = re.compile(r'[^"\\\n]*')


def said_in(text: bytes, rows: Iterable[Tuple[str, str]]) -> Said:
    """What the rows of the section say, each a name and its substitute."""
    found: Said = ({}, set())
    for name, value in rows:
        make, value = _MAKERS.get(name), value.strip()
        made = None if make is None else make(value)
        if value == "dangerous":
            found[1].add(name)
        elif made is None:
            from ._places import line_of  # few files have a fault

            hint = f"no substitute for {name} is called {value!r}" if make else f"{name} has none"
            raise ListFault(_FAULT, "", line_of(text, "substitutes", name), hint)
        else:
            found[0][name] = made
    return found


def _rows(value: str) -> Iterator[Tuple[str, List[str]]]:
    """The rows `words of name; words of name`."""
    for row in value.split(";"):
        words, _, name = row.rpartition(" of ")
        yield name.strip(), [word.strip() for word in words.split(",") if word.strip()]


def _is_dotted(name: str) -> bool:
    return "." in name and all(word.isidentifier() for word in name.split("."))


def _getattr(value: str) -> Optional[Any]:
    rows = dict(_rows(value))
    if not all(_is_dotted(name) and words for name, words in rows.items()):
        return None
    return substitutes.getattr(
        {name: None if words == ["members"] else words for name, words in rows.items()}
    )


def _partial(value: str) -> Optional[Any]:
    rows: Dict[Any, List[str]] = dict(_rows(value))
    return substitutes.partial(rows) if all(map(_is_dotted, rows)) else None


def _names(make: Callable[..., Any]) -> Callable[[str], Optional[Any]]:
    def made(value: str) -> Optional[Any]:
        names = [name.strip() for name in value.split(",")]
        is_fine = all(part.isidentifier() for name in names for part in name.split("."))
        return make(*names) if is_fine else None

    return made


_MAKERS: Dict[str, Callable[[str], Optional[Any]]] = {
    **dict.fromkeys(("builtins.getattr", "__builtin__.getattr"), _getattr),
    "functools.partial": _partial,
    **dict.fromkeys(
        ("operator.attrgetter", "_operator.attrgetter"), _names(substitutes.attrgetter)
    ),
    **dict.fromkeys(
        ("operator.methodcaller", "_operator.methodcaller"), _names(substitutes.methodcaller)
    ),
}


def said_of(pair: Tuple[str, str], substitute: Any) -> str:
    """What the section says of a substitute. Raises ValueError if it can't say it."""
    maker, (given, *more) = substitutes.made_of(substitute)
    if isinstance(given, dict):
        rows = sorted((str(name), words) for name, words in given.items())
        value = "; ".join(_row(name, words) for name, words in rows)
    else:
        value = ", ".join(map(str, (given, *more)))
    make = _MAKERS.get(".".join(pair))
    if make is None or not _PLAIN.fullmatch(value) or make(value) != substitute:
        raise ValueError(f"no list file can name the substitute for {'.'.join(pair)}")
    return value


def _row(name: str, words: Optional[Iterable[str]]) -> str:
    row = "members" if words is None else ", ".join(words)
    return f"{row} of {name}" if row else name

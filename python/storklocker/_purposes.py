"""What is known of a name that a list lacks: what it is for, and which ready-made lists have it."""

from __future__ import annotations

import functools
import re
from typing import Dict, List, Tuple

from . import _names, _shipped
from ._lists import shipped_list

Pair = Tuple[str, str]
_MOST = 3
"""The most lists that are named."""


@functools.lru_cache(maxsize=1)
def _held() -> Dict[Pair, List[str]]:
    """The lists that have each name, by Python 3's names."""
    found: Dict[Pair, List[str]] = {}
    for name, word in zip(_shipped.names(), _shipped.words()):
        for pair in shipped_list(name).for_loading():
            found.setdefault(pair, []).append(word)
    return found


@functools.lru_cache(maxsize=1)
def _purposes() -> Dict[str, str]:
    """What names are for that begin with a front."""
    text = _shipped.file_of("purposes").with_suffix(".txt").read_text(encoding="utf-8")
    rows = (line.partition("  ") for line in text.splitlines() if line[:1] not in ("", "#"))
    return {front: words for front, _, words in rows}


def purpose_of(pair: Pair) -> str:
    """What a name of a ready-made list is for, such as `makes time zones`; empty if none has it."""
    own = _today(pair)
    if own not in _held():
        return ""
    words, rows = ".".join(own).split("."), _purposes()
    fronts = (".".join(words[:count]) for count in range(len(words), 0, -1))
    return next((rows[front] for front in fronts if front in rows), "")


def _today(pair: Pair) -> Pair:
    """The name that a list has today, where protocols 0 to 2 write another."""
    own = _names.renamed(pair)
    return own if own in _held() else pair


def lists_with(pair: Pair) -> List[str]:
    """The ready-made lists that have a name, as a command takes them."""
    return _held().get(_today(pair), [])


@functools.lru_cache(maxsize=64)
def _version_of(package: str, word: str) -> str:
    """The version of a package which a list was tested with, as its head says it."""
    text = _shipped.file_of(_shipped.name_of(word)).read_text(encoding="utf-8")
    head = text.partition("version =")[0]
    found = re.search(rf"(?i)\b({re.escape(package)}) (\d[\d.]*\d)", head)
    return f" ({found[1]} {found[2]})" if found else ""


def known_of(pair: Pair) -> str:
    """What is known of a name that isn't on a list; empty if no ready-made list has it."""
    said = said_of(pair)
    return f"{'.'.join(_today(pair))} isn't on the list. It {said}" if said else ""


def said_of(pair: Pair) -> str:
    """What a name is for, and which ready-made lists have it; empty if none has."""
    try:
        own = _today(pair)
        held, what = lists_with(own), purpose_of(own)
        if not held or not what:
            return ""
        version = next(filter(None, (_version_of(own[0].partition(".")[0], it) for it in held)), "")
    except OSError:  # (a process that may not read its package any more)
        return ""
    *first, last = held if len(held) <= _MOST else [*held[:_MOST], f"{len(held) - _MOST} more"]
    named = f"{', '.join(first)} and {last}" if first else last
    return f"{what}{version}, and is in {named}"

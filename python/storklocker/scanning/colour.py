"""Colours of a terminal, by severity."""

from __future__ import annotations

import os
from typing import Callable, Dict, TextIO

from .severity import DANGER, NOTE, REFUSED, UNDECIDED, UNKNOWN, UNREADABLE, WARNING
from .words import Word

Paint = Callable[[str, str], str]
"""Colours a text by a severity, or by the word for a file."""

_RED, _YELLOW, _CYAN, _GREEN = "1;31", "33", "36", "32"
_COLOURS: Dict[str, str] = {
    REFUSED: _RED, DANGER: _RED, Word.DANGEROUS.value: _RED, UNREADABLE: _RED,
    UNDECIDED: _YELLOW, WARNING: _YELLOW, UNKNOWN: _YELLOW, NOTE: _CYAN,
    Word.ACCEPTED.value: _GREEN,
}


def plain(text: str, word: str) -> str:
    """The text, whatever the word."""
    return text


def _coloured(text: str, word: str) -> str:
    colour = _COLOURS.get(word)
    return text if colour is None else f"\x1b[{colour}m{text}\x1b[0m"


def paint_for(asked: str, out: TextIO) -> Paint:
    """What colours texts for an output, if that was asked for, or if it is a terminal and nothing
    in the environment says that it shall not: https://no-color.org.
    """
    if asked == "auto":
        is_dumb = os.environ.get("TERM") == "dumb" or os.name == "nt" and not _is_windows_terminal()
        is_on = out.isatty() and not os.environ.get("NO_COLOR") and not is_dumb
    else:
        is_on = asked == "always"
    return _coloured if is_on else plain


def _is_windows_terminal() -> bool:
    return "WT_SESSION" in os.environ

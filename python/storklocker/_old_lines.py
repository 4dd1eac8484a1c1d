"""Says of a list file that it has names of Python 2 where it means those of Python 3."""

from __future__ import annotations

import logging
import re
from typing import TYPE_CHECKING, Set, Tuple

from . import _names

if TYPE_CHECKING:
    from ._lists import AllowList

_LOG = logging.getLogger("storklocker")
_KEY = re.compile(r"""\s*(?:"([^"]*)"|'([^']*)'|([\w-]+))\s*=""")
_told: Set[Tuple[str, Tuple[str, str]]] = set()
_MOST = 1000
"""The most names that are remembered as told of."""


def tell(allow: AllowList, text: bytes, file: str) -> None:
    """Logs the first name of Python 2 of a list whose name of Python 3 it lacks, once."""
    old = [pair for pair in allow if _names.is_lost(pair) and _names.renamed(pair) not in allow]
    if not old or (file, old[0]) in _told or len(_told) > _MOST:
        return
    _told.add((file, old[0]))
    line = _line_of(text.decode("utf-8", "replace"), old[0])
    where = ", ".join([*([file] if file else []), *([f"line {line}"] if line else [])])
    more = f", and {len(old) - 1:,} more" if old[1:] else ""
    _LOG.warning(
        "%s: %s is a name of Python 2%s; the list means %s, as Python 3 calls it: write that",
        where or "a list", ".".join(old[0]), more, ".".join(_names.renamed(old[0])),
    )


def _line_of(text: str, pair: Tuple[str, str]) -> int:
    """The line that lists a pair, counted from 1; 0 if none looks like it."""
    module, name = pair
    listed, is_in = re.compile(f"[\"']{re.escape(name)}[\"']"), False
    for number, line in enumerate(text.splitlines(), 1):
        key = _KEY.match(line)
        is_in = module in key.groups() if key else is_in
        if is_in and listed.search(line.partition("#")[0]):
            return number
    return 0

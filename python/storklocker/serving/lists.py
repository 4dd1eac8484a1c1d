"""The lists by name, and reading them again."""

from __future__ import annotations

import hashlib
from typing import Dict, List, NamedTuple, Tuple

from .._storklocker import version as __version__
from .._lists import AllowList
from ..scanning.judging import Question
from ..scanning.listed import union_of

DEFAULT = "default"
"""The name of the list that is asked where none is named."""
CHECK, SCAN, IMPORTS, PLAIN = "check", "scan", "imports", "plain"
"""What workers are asked. A plain pickle imports nothing."""


class Lists(NamedTuple):
    """The lists as they were read at one time."""

    allows: Dict[str, AllowList]
    etags: Dict[str, str]

    def questions(self) -> Dict[Tuple[str, str], Question]:
        """What the workers are asked: for each list what `check` and `scan` ask, and what `imports`
        does, which has none, and whether a pickle is plain.
        """
        found = {
            (IMPORTS, ""): Question(with_sha256=True, as_program=True),
            (PLAIN, ""): Question(AllowList([])),
        }
        for name, allow in self.allows.items():
            found[CHECK, name] = Question(allow, with_sha256=True, as_program=True)
            found[SCAN, name] = Question(allow, with_sha256=True)
        return found


def named(given: List[str]) -> Dict[str, List[str]]:
    """The files of each list: NAME=LIST, or LIST for the default one. Raises OSError."""
    found: Dict[str, List[str]] = {}
    for word in given:
        name, equals, file = word.partition("=")
        if not equals or not _is_name(name):
            name, file = DEFAULT, word
        found.setdefault(name, []).append(file)
    if DEFAULT not in found:
        raise OSError(f"no list is the default one: give --allow LIST or --allow {DEFAULT}=LIST")
    return found


def _is_name(word: str) -> bool:
    return word.replace("-", "").replace("_", "").isalnum() and word.isascii()


def read(files: Dict[str, List[str]]) -> Lists:
    """The lists that these files are now. Raises OSError that locates a fault."""
    allows = {name: union_of(given) for name, given in files.items()}
    return Lists(allows, {name: _etag_of(allow) for name, allow in allows.items()})


def _etag_of(allow: AllowList) -> str:
    """What tells apart lists and versions that may judge otherwise."""
    digest = hashlib.sha256(f"{__version__}\n{allow.to_text()}".encode("utf-8", "surrogateescape"))
    return f'"{digest.hexdigest()[:32]}"'

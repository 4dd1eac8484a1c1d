"""The names that imports and values have in an explanation."""

from __future__ import annotations

import builtins
import functools
import keyword
from typing import Dict, Tuple

from .nodes import HELPERS

_LONGEST = 200


def _is_word(text: str) -> bool:
    return text.isidentifier() and not keyword.iskeyword(text) and text.isprintable()


@functools.lru_cache(maxsize=256)
def is_plain(module: str, name: str) -> bool:
    """Whether Python has a statement for an import."""
    if module == "__future__" or len(module) + len(name) > _LONGEST:
        return False
    return all(map(_is_word, (*module.split("."), *name.split("."))))


class Naming:
    """Gives each import the name that it is bound to, and each variable its own. What is imported
    again may be something else.
    """

    def __init__(self) -> None:
        self._counts: Dict[str, int] = {}
        self._variables = 0

    def forget(self) -> None:
        """Forgets imports, for a pickle that uses none of those before."""
        self._counts = {}

    def variable(self) -> str:
        """The next variable."""
        self._variables += 1
        return f"x{self._variables - 1}"

    def bound(self, module: str, name: str) -> Tuple[str, str]:
        """The statement that imports a name, and what it is called from then on."""
        head, dot, rest = name.partition(".")
        alias, number = head, self._counts.get(head, 0)
        while not number and self._is_reserved(alias, module) or alias in self._counts:
            number += 1
            alias = f"{head}_{number}"
        self._counts[head] = number
        self._counts[alias] = self._counts.get(alias, 0)
        renamed = "" if alias == head else f" as {alias}"
        return f"from {module} import {head}{renamed}", f"{alias}{dot}{rest}"

    @staticmethod
    def _is_reserved(alias: str, module: str) -> bool:
        if alias[:1] == "x" and alias[1:].isdigit() or alias in HELPERS:
            return True
        return hasattr(builtins, alias) and module != "builtins"

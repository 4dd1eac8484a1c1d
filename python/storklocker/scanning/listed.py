"""Lists that commands are given: list files, and names of shipped lists."""

from __future__ import annotations

import functools
import operator
from typing import Dict, Iterable

from .._answers import ListFault
from .._lists import AllowList
from .._meant import Meant, require
from .._writing import dotted
from .report import shown

LISTS = "the list file of permitted names, or @NAME,@NAME for shipped lists; several are united"
GUARDED = "undecided files don't cause status 1: a guard with this list will load them"


def list_of(path: str) -> AllowList:
    """The list of a file, or of names of shipped lists. Raises OSError that locates a fault."""
    try:
        return AllowList.from_file(path)
    except ListFault as error:
        raise OSError(str(error)) from None
    except ValueError as error:
        raise OSError(str(error) if path.startswith("@") else f"{path}: {error}") from None


def union_of(given: Iterable[str]) -> AllowList:
    """The union of these lists, which a guard would take: each is a file, or names of shipped
    lists, such as `@numpy`.
    """
    try:
        made = functools.reduce(operator.or_, map(list_of, given))
        require(made)
    except ValueError as error:  # two substitutes for a name, or a name that permits everything
        raise OSError(f"{', '.join(given)}: {error}") from None
    return made


def said_by(meant: Meant) -> Dict[str, str]:
    """What a section `[substitutes]` says of names."""
    from .._sections import said_of  # few lists have one

    said = {shown(dotted(pair)): "dangerous" for pair in meant.dangerous}
    return {**said, **{dotted(it): said_of(it, its) for it, its in meant.substitutes.items()}}

"""Checks pickles with a proved checker, in this process, before `pickle` sees a byte of them.

    >>> import datetime, pickle, storklocker
    >>> guard = storklocker.Guard(storklocker.AllowList({"datetime": ["date"]}))
    >>> guard.loads(pickle.dumps(datetime.date(2030, 1, 31)))
    datetime.date(2030, 1, 31)
    >>> guard.loads(b"cos\\nsystem\\n.")
    Traceback (most recent call last):
    storklocker._answers.Refused: no at 0: ImportOffList("os","system") (Dangerous: It runs a
    command. Don't list it)

A `Guard` replaces the module `pickle`: it has `load`, `loads`, `dump`, `dumps`, `Pickler` and
`Unpickler`. It checks and loads one immutable copy of the bytes. Where it also judges objects, the
reader gets this copy with BUILD, calls and frames rewritten.

    check, check_row     check a pickle, or a stream of pickles, without loading anything
    loads                a guarded load in one call
    imports, missing     every name that a pickle would import, or only those off a list
    explain              what a pickle would do, as Python for people to read
    AllowList            the names that may be imported: from pairs, a dict, or a list file
    lists                a module: ready-made lists
    substitutes          a module: replacements for dangerous names during a load
    Limits, STANDARD     limits on the cost of a pickle, and the default ones
    Verdict, Reason      the result of a check, and the reason of a refusal
    Refused, MoreBytes   raised by a guarded load; both are pickle.UnpicklingError
    Misused              raised during the load of an accepted pickle that misuses a listed name
    ListFault            raised for a text that is not a list file; a ValueError
    Refusal, context     the argument of on_refusal, and the place to name what is being loaded
    install, trusted     one guard for every load of this interpreter, and the exceptions to it

An accepted pickle is safe in every run of the pickle machine: each import is on the list, each step
finds what it needs, and exactly one object is left. By default the cost of its keys is also within
`Limits`, and its BUILD changes no imported object. This doesn't mean that the listed names are
harmless, or that loading succeeds. See docs/PYTHON.md.
"""

# In these modules annotations are in quotes, because importing `__future__` would take 0.2 ms.
from ._answers import Import, ListFault, Misused, MoreBytes, Refused, RowVerdict, Verdict
from ._limits import Limits
from ._lists import STANDARD, AllowList
from ._guard import Guard
from ._loading import loads
from ._storklocker import version as __version__

TYPE_CHECKING = False
if TYPE_CHECKING:
    from typing import Any, List, Tuple

    from ._checking import check, check_row
    from ._imports import imports, missing
    from ._reasons import Reason
    from ._refusal import Refusal, context
    from .everywhere import Installed, Unlisted, install, installed, trusted
    from .explaining import Explanation, explain

__all__ = [
    "AllowList",
    "Explanation",
    "Guard",
    "Import",
    "Installed",
    "Limits",
    "ListFault",
    "Misused",
    "MoreBytes",
    "Reason",
    "Refusal",
    "Refused",
    "RowVerdict",
    "STANDARD",
    "Unlisted",
    "Verdict",
    "__version__",
    "check",
    "check_row",
    "context",
    "explain",
    "imports",
    "install",
    "installed",
    "loads",
    "missing",
    "trusted",
]


_LATER = {
    "check": "_checking",
    "check_row": "_checking",
    "imports": "_imports",
    "missing": "_imports",
    "Reason": "_reasons",
    "Refusal": "_refusal",
    "context": "_refusal",
    "Explanation": "explaining",
    "explain": "explaining",
    "Installed": "everywhere",
    "Unlisted": "everywhere",
    "install": "everywhere",
    "installed": "everywhere",
    "trusted": "everywhere",
}
"""The modules of names that a guard doesn't need, which are imported on first use."""


def _hint_for(pair: "Tuple[str, str]") -> str:
    from ._name_hints import hint_of  # reading what is known of names takes a while

    return hint_of(pair)


def _guard_of(*given: "Any") -> Guard:
    from ._reloading import guard_of  # few guards have a file

    return guard_of(*given)


# What lower layers ask of higher ones.
Refused.hint_for = staticmethod(_hint_for)
Guard.of_file = staticmethod(_guard_of)


def __getattr__(name: str) -> "Any":
    if name not in _LATER:
        raise AttributeError(f"module {__name__!r} has no attribute {name!r}")
    from importlib import import_module

    found = getattr(import_module(f"{__name__}.{_LATER[name]}"), name)
    globals()[name] = found
    return found


def __dir__() -> "List[str]":
    """What `help` shows."""
    return sorted({*globals(), *__all__})

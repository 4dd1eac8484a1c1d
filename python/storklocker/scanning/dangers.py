"""What is known of the names that a pickle imports.

The table `known.txt` is made by `python/catalogue/make`. It isn't complete: a name that isn't in it
may be just as harmful, so it is a finding too.
"""

from __future__ import annotations

import functools
import os
import re
import sys
from importlib.machinery import PathFinder
from pathlib import Path
from typing import Container, Dict, FrozenSet, Iterable, Iterator, List, Optional, Tuple

from .._lists import AllowList, shipped_list
from .._meant import EVERYTHING
from .._names import RENAMED, modules_of, renamed
from .._shipped import names as shipped_names
from .known import HARMLESS, Known, Row
from .report import LONGEST, Finding, Pair, shown
from .severity import DANGER, WARNING
from .spelled import is_module

MOST = 100
"""The most findings of each kind on the names of one pickle. A further one counts the rest."""

_SHORT = 200
"""The most characters of a module and a name whose judgement is kept."""
_WORDS = 8
"""The most words of a dotted name: no class lies so deep, but a way from module to module may."""
_HIDDEN = "The pickle computes the name that it imports."
_UNKNOWN = "Nobody has judged what a pickle can do with it."
_MORE = "{} more names like these."
_MAKING = (".__init__", ".__new__", ".__call__")
"""What does as much as its class."""
_KINDS = {DANGER: "dangerous-import", WARNING: "risky-import"}
_INNER = Row(DANGER, "It reaches into an object, and from there any object of the interpreter.")
_MAIN = Row(WARNING, "Importing this module runs it as a command.")
_DOTTED = re.compile(r"[^\W\d][\w-]*(\.[^\W\d][\w-]*)*")
"""A name with dots, as no sentences are."""
_INWARDS = frozenset(
    "__base__ __bases__ __builtins__ __class__ __closure__ __code__ __dict__ __func__"
    " __getattribute__ __globals__ __import__ __loader__ __mro__ __self__ __spec__ __subclasses__"
    " __wrapped__ ag_frame cr_frame f_back f_builtins f_globals f_locals func_globals gi_frame mro"
    " tb_frame".split()
)
"""Attributes through which a dotted name gets to everything."""


_own = ""
"""The table of a team, which comes before the one that is shipped."""
_ROW = re.compile(r"#.*|\s.*|[\w.]+(\.\*)?(  .*)?|")
_SECTION = re.compile(r"\[danger\] \S.*")


def table_of(path: str) -> str:
    """The table of a team's own dangers in a file. Raises OSError with the line of a fault."""
    text, is_in_section = Path(path).read_text(encoding="utf-8", errors="replace"), False
    for number, line in enumerate(text.splitlines(), 1):
        is_section = _SECTION.fullmatch(line) is not None
        is_in_section |= is_section
        is_row = _ROW.fullmatch(line) is not None
        if not (is_section or is_row and (is_in_section or line[:1] in ("", "#"))):
            raise OSError(f"{path}:{number}: expected `[danger] A sentence.`, or below one a name")
    return f"{text}\n"


def judge_by(own: str) -> bool:
    """Judges by this table too from now on. Returns whether that is new."""
    global _own
    if own == _own:
        return False
    _own = own
    known.cache_clear()
    is_suspect.cache_clear()
    suspect_heads.cache_clear()
    _judged_before.cache_clear()
    return True


@functools.lru_cache(maxsize=None)
def known() -> Known:
    """The table of judged names."""
    return Known(_own + Path(__file__).with_name("known.txt").read_text(encoding="utf-8"))


@functools.lru_cache(maxsize=None)
def _listed() -> FrozenSet[Tuple[str, str]]:
    """The names in the shipped lists, but for those that a guard loads otherwise."""
    held = map(shipped_list, shipped_names())
    return frozenset(pair for allow in held for pair in allow if pair not in _substituted(allow))


def _substituted(allow: AllowList) -> Container[Tuple[str, str]]:
    """The names of a list for which it has substitutes."""
    return () if allow.meant is None else allow.meant.substitutes


def judged(module: str, name: str) -> Optional[Row]:
    """What is known of a name; None if nobody has judged it."""
    is_short = len(module) + len(name) <= _SHORT  # so that hostile ones don't fill the memory
    return _judged_before(module, name) if is_short else _judged(module, name)


def danger_of(pair: Tuple[str, str]) -> str:
    """Why a name is dangerous, or an empty text if it isn't known to be."""
    row = judged(*pair)
    if row is not None and row.severity == DANGER:
        return f"Dangerous: {shown(row.why)}"
    return "Dangerous: it permits everything." if pair in EVERYTHING else ""


def is_harmful(module: str, name: str) -> bool:
    """Whether a name is known to do harm."""
    row = judged(module, name)
    return row is not None and row.severity != HARMLESS


def may_be_there(module: str, name: str) -> bool:
    """Whether a module may have something of this name. A `__main__` needs none: its import runs
    it.
    """
    is_name = all(word.isidentifier() for word in name.split("."))
    return is_module(module) and (is_name or module.endswith("__main__"))


def may_be_imported(module: str, name: str) -> bool:
    """Whether a reader may get this from a module, or at least import one that leads to harm or is
    found here: what a module does when it is imported is done whatever is asked of it.
    """
    if may_be_there(module, name):
        return True
    return is_module(module) and (is_suspect(module) or is_found_here(module))


@functools.lru_cache(maxsize=1)
def _packages_in(path: Tuple[str, ...]) -> Optional[FrozenSet[str]]:
    """What may be a package in these folders, in lower case; None if one is no folder."""
    try:
        names = [name for it in path if os.path.exists(it or ".") for name in os.listdir(it or ".")]
    except OSError:
        return None
    return frozenset(name.partition(".")[0].lower() for name in names)


@functools.lru_cache(maxsize=4096)
def is_found_here(module: str) -> bool:
    """Whether this Python finds the package of a module, which isn't imported."""
    package = module.partition("\0")[0].partition(".")[0]
    if package in sys.builtin_module_names:
        return True
    packages = _packages_in(tuple(sys.path))
    if packages is not None and package.lower() not in packages:
        return False  # (a hostile file has many names, and to look for each takes long)
    try:
        return PathFinder.find_spec(package) is not None
    except (ImportError, OSError, ValueError):
        return False


@functools.lru_cache(maxsize=4096)
def is_suspect(text: str) -> bool:
    """Whether something harmful can be imported by a text, as the module or as the name."""
    module = text.partition("\0")[0]
    if "." not in module:
        is_name = module.encode("utf-8", "replace") in suspect_heads()
    else:
        is_name = _DOTTED.fullmatch(module) is not None
    if not is_name:
        return False
    new = modules_of(module) if module in RENAMED else ()
    leads = any(map(known().leads, (module, *new)))
    return leads or is_harmful(module, "?") or is_harmful("?", text)


@functools.lru_cache(maxsize=None)
def suspect_heads() -> FrozenSet[bytes]:
    """The first words of all texts for which `is_suspect` is true, but for some with dots."""
    modules = {name.partition(".")[0] for name in (*known().modules(), *RENAMED)}
    return frozenset(word.encode() for word in modules | _INWARDS)


def _judged(module: str, name: str) -> Optional[Row]:
    found = [row for row in _rows(module, name) if row is not None]
    order = (DANGER, WARNING, HARMLESS)
    worst = min(found, key=lambda row: order.index(row.severity), default=None)
    if worst is not None and worst.severity == HARMLESS:
        return worst  # (to read the shipped lists takes longer than to judge a thousand names)
    return Row(HARMLESS) if _is_listed(module, name) else worst


def is_in_shipped_list(module: str, name: str) -> bool:
    """Whether a shipped list has a name, which a guard loads as it is."""
    return (module, name) in _listed()


def _is_listed(module: str, name: str) -> bool:
    """Whether a shipped list has a name, which isn't dangerous by itself."""
    module = module.partition("\0")[0]
    if not is_in_shipped_list(module, name):
        return False
    row = known().judged(f"{module}.{name}")
    return row is None or row.severity != DANGER


# (the files of a scan mostly import the same names)
_judged_before = functools.lru_cache(maxsize=4096)(_judged)


def _rows(module: str, name: str) -> Iterator[Optional[Row]]:
    table, module = known(), module.partition("\0")[0]  # as Python finds frozen modules
    yield table.judged(f"{module}.{name}")
    # a pickle of protocols 0 to 2 may mean another name
    new = renamed((module, name))
    if new != (module, name):
        yield table.judged(".".join(new))
    if name in _INWARDS:
        yield _INNER
    if module.endswith(".__main__"):
        yield _MAIN
    if name.endswith(_MAKING):
        yield table.judged(f"{module}.{name}"[: name.rfind(".") - len(name)])
    if "." in name:
        yield from _rows_inside(name)


def _rows_inside(name: str) -> Iterator[Optional[Row]]:
    """A dotted name may reach into a module that the first one imports, or into an object."""
    words = name.split(".", _WORDS)
    if len(words) > _WORDS or not _INWARDS.isdisjoint(words):
        yield _INNER
        return
    for at in range(len(words) - 1):
        yield known().judged(".".join(words[at:]).lstrip("_"))


def import_findings(
    pairs: Iterable[Pair], allow: Optional[AllowList] = None, is_text: bool = False
) -> List[Finding]:
    """What is to be said of these imports, each of which is met once. Of a name on the list, only
    that it is dangerous. In a text, an unjudged module that isn't found here may just be a word.
    """
    found: Dict[str, List[Finding]] = {}
    counts: Dict[str, int] = {}
    for module, name in pairs:
        row = Row(DANGER, _HIDDEN)
        kind = "hidden-import"
        if module is not None and name is not None:
            row = judged(module, name) or Row("", _UNKNOWN)
            kind = _KINDS.get(row.severity, "unknown-import")
            if row.severity == HARMLESS:
                continue
            if is_text and not row.severity and not is_found_here(module):
                kind = "text-import"
            if allow is not None and row.severity != DANGER and (module, name) in allow:
                continue
        counts[kind] = counts.get(kind, 0) + 1
        if counts[kind] <= MOST:
            dotted = "" if module is None else shown(f"{module}.{name}", LONGEST)
            found.setdefault(kind, []).append(Finding(kind, row.why, dotted, row.example))
    for kind, count in counts.items():
        if count > MOST:
            found[kind].append(Finding(kind, _MORE.format(f"{count - MOST:,}")))
    return [it for kind in found for it in found[kind]]


def list_findings(allow: AllowList) -> List[Finding]:
    """What is to be said of a list, but for names that a guard loads through its substitutes."""
    wild = {pair: None for pair in allow if "*" in "".join(pair)}
    why = "a list has no wildcards: write each name"
    found = [Finding("wildcard", why, ".".join(pair)) for pair in wild]
    judged = _substituted(allow)
    return found + import_findings(it for it in allow if it not in wild and it not in judged)

"""Checks of bytes in memory. They load nothing."""

from __future__ import annotations

from . import _names
from ._limits import flag
from ._lists import AllowList, settings_of
from ._storklocker import row_verdict, verdict, walked

TYPE_CHECKING = False
if TYPE_CHECKING:
    from typing import Iterator, List, Optional, Tuple

    from ._answers import RowVerdict, Verdict
    from ._limits import Limits

JUDGING = ("limits", "old_strings", "build")
"""The settings of a guard that its checks depend on."""

INTERRUPTIBLE_FROM = 1 << 22
"""The least size in bytes of a row whose check a signal can interrupt. Such a check takes a hundred
times as long as starting a thread, unless the row is mostly payloads.
"""


def check(
    data: bytes,
    allow: AllowList,
    *,
    limits: Optional[Limits] = None,
    old_strings: str = "unknown",
    build: str = "made",
    fix_imports: bool = True,
) -> Verdict:
    """Checks the pickle at the front of `data`, a bytes object, without running it.

        >>> allow = storklocker.AllowList({"collections": ["OrderedDict"]})
        >>> verdict = storklocker.check(b"ccollections\\nOrderedDict\\n.", allow)
        >>> bool(verdict), verdict.taken, verdict.imports
        (True, 26, 1)
        >>> str(storklocker.check(b"cos\\nsystem\\n.", allow))
        'no at 0: ImportOffList("os","system")'

    Returns a Verdict, and ignores bytes after STOP. Raises MemoryError.

    limits: Limits; by default the list's, or STANDARD. If both are given, the smaller applies.
    old_strings: how Python 2 strings are decoded: "ascii" to text (a byte above 7f is refused),
        "bytes" to bytes, "unknown" to either.
    build: the objects on which BUILD may set attributes, unless the list decides it: "made"
        excludes imported objects, "any" doesn't.
    fix_imports: whether pickles of protocols 0 to 2 use names of Python 2, as in a guard.
    """
    listed = _listed_for(data, allow, fix_imports)
    if limits is None and old_strings == "unknown" and build == "made":
        return verdict(data, listed, None)
    return verdict(data, listed, settings_of(allow, limits, old_strings, build))


def _listed_for(data: bytes, allow: AllowList, fix_imports: bool) -> AllowList:
    """The list that applies to the pickle that begins the bytes."""
    if fix_imports and isinstance(allow, AllowList) and isinstance(data, bytes):
        return allow.listed_for(data)
    return allow


def _runs(data: bytes) -> Iterator[Tuple[int, bool]]:
    """Where each run of pickles begins whose names are all old or not, and whether they are."""
    at, before, is_whole = 0, None, True
    while is_whole and at < len(data):
        is_old = _names.are_old(data[at : at + 2])
        if is_old != before:
            yield at, is_old
        before = is_old
        at, is_whole = walked(data, at)


def check_row(
    data: bytes,
    allow: AllowList,
    *,
    one_unpickler: bool = False,
    limits: Optional[Limits] = None,
    old_strings: str = "unknown",
    build: str = "made",
    fix_imports: bool = True,
) -> RowVerdict:
    """Checks a stream: pickles that follow one another up to the end of `data`.

        >>> verdict = storklocker.check_row(b"N.N.cos\\nsystem\\n.", storklocker.AllowList([]))
        >>> verdict.pickles, str(verdict)
        (2, 'no in pickle 2 at 4: ImportOffList("os","system")')

    Returns a RowVerdict. Its `pickles` is the number of accepted pickles, and `at` counts from the
    first byte. From 4 MiB on, Ctrl-C ends a call in the main thread at once, while the check runs
    to its end in the background.

    one_unpickler: whether one Unpickler loads them all and keeps its memo. If some of them use
        names of Python 2 and others don't, they may import only what both may.
    """
    keeps_memo = flag("one_unpickler", one_unpickler)
    settings = settings_of(allow, limits, old_strings, build, keeps_memo)
    new, old = (allow.for_loading(), allow.for_old_names()) if fix_imports else (allow, allow)
    if new is old or not isinstance(data, bytes):
        return _row(data, new, settings)
    runs = [*_runs(data)] or [(0, True)]
    if len(runs) == 1 or keeps_memo:
        found = [_row(data, old if it else new, settings) for it in {it for _, it in runs}]
        return min(found, key=lambda it: (it.accepted, it.pickles, it.at))
    return _rows(data, [(at, old if it else new) for at, it in runs], settings)


def _rows(data: bytes, runs: List[Tuple[int, AllowList]], settings: bytes) -> RowVerdict:
    """The answer for a row with runs that are each checked under a list."""
    taken = imports = pickles = 0
    for number, (at, allow) in enumerate(runs):
        end = runs[number + 1][0] if number + 1 < len(runs) else len(data)
        found = _row(data[at:end], allow, settings)
        pickles += found.pickles
        if not found:
            return found._replace(at=at + found.at, pickles=pickles)
        taken, imports = taken + found.taken, imports + found.imports
    words = {"taken": taken, "imports": imports, "pickles": pickles}
    return found._replace(**words)


def _row(data: bytes, allow: AllowList, settings: bytes) -> RowVerdict:
    if type(data) is bytes and len(data) >= INTERRUPTIBLE_FROM:
        from ._waiting import interruptible  # few rows are long

        return interruptible(row_verdict, data, allow, settings)
    return row_verdict(data, allow, settings)

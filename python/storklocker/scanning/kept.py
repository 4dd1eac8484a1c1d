"""What pickles that follow one another import, if one Unpickler loads them all.

It keeps its memo for the next pickle, where `pickle.load` begins anew. What a pickle fetches from
the memo may then be another text, and the name that it is a part of another name. A row that was
written with `pickle.dump` is nonsense to such a reader: so only what is dangerous is told. One that
a Pickler has written ends early for `pickle.load`, and is read as the Unpickler reads it.
"""

from __future__ import annotations

import sys
from typing import TYPE_CHECKING, Dict, Iterable, List, NamedTuple, Optional, Tuple

from .._answers import RowVerdict
from .._checking import check_row
from .._limits import Limits
from .._lists import AllowList
from .._names import are_old
from .._reasons import Reason
from .._storklocker import walked
from .budget import LOOKED_AT, STEP, Budget
from .costs import permitting
from .dangers import is_found_here, judged, may_be_imported
from .known import HARMLESS
from .names import NOTHING as NO_NAMES
from .names import imports_within, named_today, pair_of
from .reaching import READERS_STOP
from .report import Finding, dotted, shown
from .severity import DANGER
from .source import Source
from .words import Word

if TYPE_CHECKING:
    from .._pairs import Names

_OLD = b"\x80\0"
"""How a pickle begins whose names are those of Python 2."""


_POP, _STOP = b"0."
_HIDDEN: "Names" = (None, None)
_MOST = 8
"""How many such names are looked for by the checker. Others are looked for by following the row."""


class Kept(NamedTuple):
    """What one Unpickler does that loads the whole row.

    names: what it imports beside what the others import, as far as that is dangerous.
    is_complete: whether these are all.
    """

    names: List[Names]
    is_complete: bool = True


NOTHING = Kept([])


class Stream(NamedTuple):
    """Pickles as one Unpickler reads them.

    joined: the same bytes as one pickle: a POP stands for each STOP but the last.
    begins: where each pickle begins.
    names: what they import.
    verdict: the answer to all, under a list or with each import permitted.
    """

    joined: bytes
    begins: List[int]
    names: Dict[Names, None]
    verdict: RowVerdict


def stream_in(
    data: bytes, limits: Limits, allow: Optional[AllowList], budget: Budget
) -> Optional[Stream]:
    """The stream that these bytes are; None if one Unpickler doesn't load them all, or some of the
    pickles have names of Python 2, and others don't.
    """
    made, at, is_whole = bytearray(data), 0, True
    begins: List[int] = []
    while is_whole and at < len(data):
        begins.append(at)
        at, is_whole = walked(data, at)
        made[at - 1] = _POP
    budget.spend(STEP + len(begins) + 3 * len(data) // LOOKED_AT)
    if not is_whole or len({are_old(data[begin : begin + 2]) for begin in begins}) > 1:
        return None
    made[-1] = _STOP
    found = imports_within(bytes(made), NO_NAMES, limits)
    if not (found.verdict and found.is_complete):
        return None
    listed = permitting(found.names) if allow is None else allow
    verdict = check_row(data, listed, one_unpickler=True, limits=limits, build="any")
    if not verdict and (allow is None or verdict.reason in READERS_STOP):
        return None
    return Stream(bytes(made), begins, found.names, verdict)


def apart_in(
    source: Source, at: int, names: Iterable[Names], stream: Stream, budget: Budget
) -> List[Names]:
    """What `pickle.load` may import of a stream up to the pickle at an offset, which is broken for
    it, and one Unpickler doesn't. These are the names as far as the walk finds them that looks for
    no values.
    """
    found = dict.fromkeys(names)
    if _HIDDEN in found:
        from .calls import Naming  # few files are looked at so

        walk = Naming(source, at)
        del found[_HIDDEN]
        walk.through()
        budget.spend(walk.steps + (walk.at - at) // LOOKED_AT)
        found.update(dict.fromkeys(named_today(walk.names, source.read(at, 2))))
    return [it for it in found if not _are_in(stream.names, it) and _may_be(it)]


def kept_in(
    source: Source, size: int, names: Iterable[Names], limits: Limits, budget: Budget
) -> Kept:
    """What it imports in the first bytes, so many, of pickles that import these names if the memo
    of each is its own.
    """
    own, found = dict.fromkeys(names), {}  # type: Dict[Names, None], Dict[Names, None]
    data, is_complete = source.read(0, size), True
    for _ in range(_MOST):
        budget.spend(STEP + size // LOOKED_AT + len(own))
        verdict = check_row(
            data, permitting((*own, *found)), one_unpickler=True, limits=limits, build="any",
            fix_imports=False,
        )
        pair = verdict.pair if verdict.reason is Reason.ImportOffList else None
        if pair is None or not may_be_imported(*pair):
            break  # (it reads them all, or ends with an error)
        found[pair[0].encode(), pair[1].encode()] = None
    else:
        pair = None
    if not (verdict or pair or verdict.reason in READERS_STOP):
        is_complete = _follow(source, size, found, budget)
    told = [it for it in found if not _are_in(own, it) and _counts(it)]
    return Kept(told, is_complete)


def _follow(source: Source, size: int, found: Dict[Names, None], budget: Budget) -> bool:
    """Adds what the most lenient reader imports. Returns whether it was followed to its end."""
    from .calls import Naming  # few files are looked at so

    walk, is_ended = Naming(source, 0), True
    while is_ended and walk.at < size:
        at = walk.at
        is_ended, is_complete = walk.again()
        budget.spend(STEP + (walk.at - at) // LOOKED_AT)
        if not is_complete:
            return False
    budget.spend(walk.steps)
    found.update(walk.names)
    return True


def _are_in(own: Dict[Names, None], names: Names) -> bool:
    """Whether they are among these, perhaps under the name that they had in Python 2."""
    return names in own or any(it in own for it in named_today([names], _OLD))


def _may_be(names: Names) -> bool:
    """Whether such an import may be one, and not words that no module has for its name."""
    module, name = pair_of(names)
    return module is None or name is None or may_be_imported(module, name)


def _counts(names: Names) -> bool:
    """Whether such an import is told: a danger, or one of which nobody knows that it is harmless,
    of a module that is here. The others may be words, which only look like names.
    """
    module, name = pair_of(names)
    if module is None or name is None:
        return True
    row = judged(module, name)
    if row is None or row.severity not in (DANGER, HARMLESS):
        is_there = may_be_imported(module, name) and is_found_here(module)
        return is_there and not _is_lacking(module, name)
    return row.severity == DANGER


def _is_lacking(module: str, name: str) -> bool:
    """Whether a module that is imported here has nothing of this name."""
    held = vars(sys.modules[module]) if module in sys.modules else {"__getattr__": None}
    return name.partition(".")[0] not in held and "__getattr__" not in held


def told_of_kept(
    kept: Kept, status: Word, why: str, allow: Optional[AllowList], findings: List[Finding]
) -> Tuple[Word, str]:
    """The word and the line of a row of which one Unpickler reads something else. Adds findings."""
    name = shown(dotted(pair_of(kept.names[0]))) if kept.names else "an unknown name"
    said = f"one Unpickler that loads all pickles imports {name}, and others don't"
    findings.append(Finding("differing-readings", said))
    if allow is None or status is Word.REFUSED:
        return status, why
    if kept.is_complete and all(map(allow.permits, kept.names)):
        return status, why
    findings.append(Finding("refused", said))
    return Word.REFUSED, f"no: {said}"

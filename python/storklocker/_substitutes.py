"""Loads accepted pickles with substitutes for some listed names, and judges each state that is set.

An allow list is about names. Some listed names do harm if a pickle calls them as no pickler does:
`numpy.dtype` with a state of its choice makes NumPy follow a pointer out of the pickle. Such a
name is imported as a substitute of ours, which checks its arguments, the very objects, when it is
called. BUILD isn't a call of a name. The reader that this module feeds gets each BUILD as the
persistent id (receiver, state), in otherwise unchanged instructions, so that the state is judged
before it is set. Where a substitute would be left in what is loaded, a persistent id of three parts
has the reader put the real object there.
"""

from __future__ import annotations

from typing import TYPE_CHECKING, Any, NamedTuple, Optional

from ._judging import JUDGES, judged
from ._plain import loads as plain_loads
from ._reader import Reader, RenamingReader, declared, meant
from ._uses import Told, Uses
from ._uses import begin as begin_with

if TYPE_CHECKING:
    from ._lists import AllowList

_DEFAULTS = {"encoding": "ASCII", "errors": "strict", "buffers": None}
"""What a reader takes as if it were given nothing, only slower."""


class Judged(NamedTuple):
    """How a pickle is loaded."""

    is_old: bool
    """Whether its names are those of Python 2."""
    takes_any: bool
    """Whether BUILD may take what the pickle hasn't made."""


def begin(guard: Any) -> None:
    """Has a guard find out by itself whether a pickle needs a reader of these, from the second
    pickle on.
    """
    if not (declared(guard.allow) or meant(guard.allow)):
        is_quick = guard.old_strings == "unknown" and not guard.takes_any
        begin_with(guard, JUDGES if is_quick else None)


def loads(
    data: bytes, allow: AllowList, how: Judged, told: Optional[Told] = None, **named: Any
) -> Any:
    """The object of a pickle that is accepted under the list, of which the guard may have been
    told.
    """
    if named == _DEFAULTS:
        named = {}
    uses = Uses(declared(allow), frozenset(), meant(allow))
    uses.takes_any = how.takes_any
    if told is None or how.takes_any:
        pieces = uses.respelled(data, 0, how.is_old)
    else:
        pieces = uses.taken(told)
    if not uses.judges:
        return plain_loads(data, how.is_old, **named)
    if uses.judges > 1 or named or how.is_old or how.takes_any:
        return (RenamingReader if how.is_old else Reader)(allow, uses, **named).read_pieces(pieces)
    return judged(pieces)

"""Files of joblib: the pickle that is left without their arrays, and those of arrays of objects."""

from __future__ import annotations

import io
from typing import Optional, Tuple

from .._lists import AllowList
from .budget import Budget
from .following import NotFollowed
from .joblib_cutting import WRAPPERS, Cutter
from .names import length_at
from .readings import Piece
from .rows import Row
from .source import in_memory

WRAPPER_NAMES = frozenset((module.encode(), name.encode()) for module, name in WRAPPERS)


def without_arrays(
    piece: Piece, row: Row, allow: Optional[AllowList], budget: Budget
) -> Tuple[Piece, Row]:
    """The pickle without its arrays, and what is found in it and in those of arrays of objects. If
    it isn't as joblib writes it, the same piece and row, which says why.
    """
    source = piece.source
    try:
        cut = Cutter(source, lambda at: length_at(source, at, budget), budget.spend).cut()
        if cut.end < source.size:
            raise NotFollowed("bytes follow it")
    except NotFollowed as error:
        row.raw = f"joblib writes arrays between the instructions, but not like this: {error}"
        return piece, row
    piece = piece._replace(kind="joblib", is_claimed=True, most=1)
    left = in_memory(io.BytesIO(cut.pickle))
    first = Row(piece._replace(source=left), allow, budget)
    for gap in filter(lambda gap: gap.is_pickle, cut.gaps):
        nested = source.part(gap.start, gap.size)
        other = Row(piece._replace(source=nested), allow, budget)
        first.names.update(other.names)
        first.imports += other.imports
        first.sources.append(nested)
        first.is_complete &= other.is_complete
        if first.refusal is None:  # (a refusal is false)
            first.refusal = other.refusal
        first.too_much = first.too_much or other.too_much
    first.taken = cut.end
    return piece, first

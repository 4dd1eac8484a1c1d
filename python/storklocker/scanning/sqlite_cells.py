"""Cells of SQLite's pages whose values are plain pickles, or import nothing: most are. Those of a
page are told by one call, because a call for each takes longer than to read them.
"""

from __future__ import annotations

import itertools
import re
from typing import Dict, List, NamedTuple, Optional, Set, Tuple

from .._storklocker import cells
from .budget import Budget
from .marks import FIRST
from .rows import CLAIM
from .sqlite_pages import values_of
from .value_packing import IMPORTS, may_import, plainly_unpacked
from .values import Values

LEAST = 4
"""No shorter value imports anything."""
_HIGH = 0x80
"""The bit of a byte of a number behind which another one follows."""
_PROTO = 0x80
_PACKED = b"".join(FIRST[it] for it in ("gzip", "bzip2", "xz", "zlib", "ZF", "packed file"))
"""How a short value may begin of which it is told that it may be packed."""
_SIZE = rb"[\x80-\xff]?[\0-\x7f]"
_FRONTS = (re.compile(_SIZE), re.compile(_SIZE + rb"[\x80-\xff]{0,7}[\0-\x7f]"))
"""What stands in front of a short record: of an index, and of a table."""
_KEPT_BACK, _SHARE = 290, 6
"""A shorter record lies whole in a page: of a table, by the bytes that others need; of an index, by
its share of the page.
"""
_KEPT = 4096
"""So many forms of records are kept."""


_QUIET = bytes(
    (IMPORTS.match(bytes([byte])) is None) | 2 * (byte not in _PACKED) for byte in range(256)
)
"""Of each byte, by 1 whether it may stand in a short value that imports nothing, and by 2 whether
in front of one that nothing is packed in.
"""


class _Form(NamedTuple):
    """Where a record has its values that aren't short, and how long it is."""

    size: int
    values: Tuple[Tuple[int, int], ...]
    """The offset and the size of each."""


class PlainCells:
    """Tells of the cells of pages."""

    def __init__(self, values: Values, budget: Budget) -> None:
        self._values, self._budget = values, budget
        self._forms: Dict[bytes, _Form] = {}
        self._known: Dict[int, Tuple[List[int], List[int]]] = {}
        self.seen: Set[int] = set()
        """The hashes of values that are packed and are told later."""

    def known(self) -> Tuple[List[int], List[int]]:
        """Where the values are in the file that are told later: where each begins, in their order,
        and where it ends.
        """
        begins, ends = [], []  # type: List[int], List[int]
        for start in sorted(self._known):
            those = self._known[start]
            begins += [start + at for at in those[0]]
            ends += [start + at for at in those[1]]
        return begins, ends

    def left(
        self, page: bytes, start: int, places: int, count: int, is_of_table: bool
    ) -> Optional[List[int]]:
        """The cells of a page at a place of the file that are to be read one by one; None if all
        are. So many places of cells stand at one of the page.
        """
        self._budget.spend(count)
        begins, ends, others = cells(
            page, _QUIET, places, count, _most_of(page, is_of_table), is_of_table
        )
        left: List[int] = []
        packed: List[Tuple[int, int, bytes]] = []
        for cell in dict.fromkeys(others):
            at = self._record_at(page, cell, is_of_table)
            found = self._found(page, at, self._forms[page[at : at + page[at]]]) if at else None
            if found is None:
                left.append(cell)
            packed += found or ()
        if begins or packed:
            if not self._are_taken(page, begins, ends, packed):
                return None
            begins += [begin for begin, _, _ in packed]
            ends += [end for _, end, _ in packed]
            self._known[start] = sorted(begins), sorted(ends)
            self.seen.update(hash(value) for _, _, value in packed)
        return left

    def _are_taken(
        self, page: bytes, begins: List[int], ends: List[int], packed: List[Tuple[int, int, bytes]]
    ) -> bool:
        """Whether these parts of a page, and what else is packed in it, are told later."""
        if not self._values.is_begun or len(set(begins)) < len(begins):
            return False
        values = [value for _, _, value in packed]
        behind = [*itertools.accumulate(map(len, values), initial=len(page))]
        return self._values.are_taken(
            page + b"".join(values), begins + behind[:-1], ends + behind[1:]
        )

    def _record_at(self, page: bytes, cell: int, is_of_table: bool) -> int:
        """Where the record of a cell is; 0 if it isn't a short one that is whole there."""
        front = _FRONTS[is_of_table].match(page, cell)
        if front is None:
            return 0
        size, at = page[cell], front.end()
        if size & _HIGH:
            size = (size & ~_HIGH) << 7 | page[cell + 1]
        if not 0 < size < _most_of(page, is_of_table) or at + size > len(page):
            return 0
        form = self._form_of(page[at : at + page[at]])
        return at if form is not None and form.size <= size else 0

    def _form_of(self, header: bytes) -> Optional[_Form]:
        form = self._forms.get(header)
        if form is None and 0 < len(header) < _HIGH:
            if len(self._forms) > _KEPT:
                self._forms.clear()
            values, size = values_of(header)
            its = tuple((it.at, it.size) for it in values if it.is_long and it.size >= LEAST)
            form = self._forms[header] = _Form(size, its)
        return form

    def _found(
        self, page: bytes, at: int, form: _Form
    ) -> Optional[List[Tuple[int, int, bytes]]]:
        """The values of a record that are plain pickles, perhaps: from where to where they are, and
        what they are unpacked to. None if another one may import something.
        """
        found = []
        for place, size in form.values:
            begin, end = at + place, at + place + size
            if page[begin] == _PROTO and CLAIM.match(page, begin):
                found.append((begin, end, page[begin:end]))
            elif may_import(page, begin, end):
                value = plainly_unpacked(page[begin:end], self._budget)
                if not CLAIM.match(value):
                    return None
                found.append((begin, end, value))
        return found


def _most_of(page: bytes, is_of_table: bool) -> int:
    """A record with fewer bytes lies whole in a page."""
    return len(page) - _KEPT_BACK if is_of_table else len(page) // _SHARE

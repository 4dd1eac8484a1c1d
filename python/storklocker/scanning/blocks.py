"""The blocks of a source that is looked through for what begins like a pickle.

Plain values are found by few calls in each block, because a call for each takes longer than to read
them.
"""

from __future__ import annotations

import bisect
import functools
import re
from functools import partial
from typing import TYPE_CHECKING, Dict, Iterable, Iterator, List, Optional, Sequence, Set, Tuple

from .._storklocker import begun, blanked, wholes
from .budget import Budget
from .dangers import is_harmful, is_suspect, suspect_heads
from .patterns import ANY, LETTER, NUL, masks_of
from .source import Source
from .trails import TEXT_FRONTS, Trails, texts_at
from .value_letters import runs_in
from .value_packing import (
    ENDLESS_FRONTS, STREAM_FRONTS, packed_in, spelled_in, streams_begun
)
from .values import Values

if TYPE_CHECKING:
    from .._pairs import Names

_WORD, _WORD_SIZE = rb"[A-Za-z_][\w.]{0,99}", 100
_SHOWN = re.compile(
    rb"[ci](%b)\n(%b)\n|\x8c(.)(%b)\x94?\x8c(.)(%b)\x94?\x93" % ((_WORD,) * 4), re.DOTALL
)
PROTO, _EMPTY = re.compile(rb"\x80(?=[\0-\x05])"), re.compile(rb"\((?=[dl]p?[0-9]*\n)")
"""PROTO, and the front of a dict or a list of protocol 0."""
_IMPORTS = (
    (re.compile(rb"[ci](?=%b\n%b\n)" % (_WORD, _WORD)), _WORD_SIZE + 1, _WORD_SIZE + 1),
    (
        re.compile(rb"\x8c(?=.%b\x94?\x8c.%b\x94?\x93)" % (_WORD, _WORD), re.DOTALL),
        2 * (_WORD_SIZE + 3),
        0,
    ),
)
"""An import, which may begin anywhere in a word; and how many bytes it has in front of its second
line or STACK_GLOBAL, and behind its first byte: few bytes are these, while each letter of a text
may be the beginning of an import.
"""
_NULS = tuple(re.compile(code + rb"(?=([A-Za-z_]\w{0,30})[.\0])") for code in (b"c", b"i"))
_WITH_NUL, _NAME = re.compile(rb"(%b)\0" % _WORD), re.compile(rb"%b\n" % _WORD)
"""An import whose module Python finds by what stands in front of a NUL: its first word, all of it,
and the line with the name.
"""
LONGEST = 1024
"""More bytes than these patterns match."""
FIRST = 1 << 12
"""The most bytes of a plain value."""
_SEARCHED_AT = 16
"""For so many bytes in one step the patterns are looked for."""
_STEP = 1 << 16
"""So many places of a block are its own: the bytes behind them show what begins there."""
_WALKED = 1 << 18
"""So many bytes of a block are walked through for what isn't a whole value."""
_Part = Tuple[int, int]
_Parts = Tuple[List[int], List[int]]
"""Where parts begin, and where they end."""
_STACK_GLOBAL = b"\x93"
FRAME = b"\x95"
_FRAME = (FRAME, *[ANY] * 4, *[NUL] * 4)
_PROTO_4 = re.compile(rb"\x80[\4\5]\x95")
"""A frame is no front where PROTO is in front of it."""
_NONE = (1 << 99, 1 << 99)


@functools.lru_cache(maxsize=None)
def _front_masks() -> bytes:
    """What finds PROTO and FRAME, the front of a dict or a list, the second line of an import, and
    STACK_GLOBAL.
    """
    protocols = bytes(range(6))
    return masks_of(
        [(b"\x80", protocols), _FRAME], [(b"(", b"dl")], [(b"\n", LETTER)], [(_STACK_GLOBAL,)]
    )


@functools.lru_cache(maxsize=None)
def _other_masks() -> bytes:
    """What finds texts, streams, and the size of an endless one."""
    return masks_of(TEXT_FRONTS, STREAM_FRONTS, ENDLESS_FRONTS)


class Block:
    """A part of a source, and the places in it that look like the beginning of a pickle. All places
    are those in the source.

    plain: where plain values begin that are told later, and where each ends.
    end: behind what was found so far.
    """

    end, size = 0, _STEP

    def __init__(self, start: int, data: bytes, is_hiding: bool, values: Values) -> None:
        self.start, self.data, self.values = start, data, values
        self._is_hiding = is_hiding
        self._harmless: Dict["Names", bool] = {}
        found, empty, lines, globals_ = begun(data, _front_masks(), [], [])
        found = [at for at in found if data[at] == 128 or not _PROTO_4.match(data, max(at - 2, 0))]
        found += [at for at in empty if _EMPTY.match(data, at)]
        lines = [at for at in lines if _NAME.match(data, at + 1)]
        found += _imports_shown(data, (lines, globals_))
        found += _imports_with_nul(data, lines)
        found.sort()
        self._begun = found[: bisect.bisect_left(found, _STEP)]
        self.plain: Dict[int, int] = {}
        self._parts: _Parts = ([], [])
        self._groups: List[Tuple[List[int], int]] = []
        self._taken: Set[int] = set()
        self._quiet = self._passed_over = 0
        self._shown: Optional[Tuple[List[int], ...]] = None

    def look_ahead(self, known: Iterable[_Part]) -> None:
        """Finds the plain values, but for those in front of the end or in parts that are known."""
        begins, ends = self._whole(known, self.end - self.start)
        taken_of = partial(self._taken_of, begins, ends)
        for _ in self.values.batches.left_of(range(len(begins)), taken_of):
            pass  # it is looked at when the search gets to it

    def _whole(self, known: Iterable[_Part], end: int) -> _Parts:
        """The small values with STOP, in front of one another."""
        found = wholes(self.data, self._begun, max(end, 0), FIRST, _WALKED)
        parts, free = iter(known), ([], [])  # type: Iterator[_Part], _Parts
        part = next(parts, None)
        if part is None:
            return found
        for at, behind in zip(*found):
            while part[1] - self.start <= at:
                part = next(parts, _NONE)
            if behind <= part[0] - self.start:
                free[0].append(at)
                free[1].append(behind)
        return free

    def _taken_of(self, begins: List[int], ends: List[int], those: Sequence[int]) -> int:
        first, last = those[0], those[-1] + 1
        count, imports = self.values.quiet_of(self.data, begins[first:last], ends[first:last])
        if count:
            self._parts[0].extend(begins[first : first + count])
            self._parts[1].extend(ends[first : first + count])
            its = [self.start + at for at in begins[first : first + count]]
            self._groups.append((its, imports))
            self.plain.update(zip(its, [self.start + at for at in ends[first : first + count]]))
        return count

    def take(self, at: int) -> None:
        """Takes a plain value."""
        self._taken.add(at)
        self.end = self._quiet = self.plain[at]

    def count(self) -> None:
        """Counts the plain values that were taken."""
        if len(self._taken) == len(self.plain):
            size = sum(self._parts[1]) - sum(self._parts[0])
            self.values.count(len(self.plain), size, sum(imports for _, imports in self._groups))
            return
        for those, imports in self._groups:
            its = [at for at in those if at in self._taken]
            if len(its) == len(those):
                self.values.count(len(its), sum(self.plain[at] - at for at in its), imports)
                continue
            for at in its:
                self.values.taken(self.data[at - self.start : self.plain[at] - self.start])

    def places(
        self, trails: Trails, budget: Budget, is_free: bool
    ) -> Iterator[Tuple[int, bool]]:
        """The places, and whether each is a text. Of those in plain values that were taken, texts
        are told while a trail may lead to them, and no imports that are known to be harmless.

        is_free: whether no part is known, so that plain values are taken here while there is no
            trail.
        """
        is_all = trails.is_any
        left = [] if is_all or not is_free else list(self.plain)
        found = self._places(is_all, bool(left))
        while True:
            budget.spend(6 * (len(found) + len(left)))
            for last in found:
                at, is_text = last
                yield from self._passed(at, left)
                if is_text or at >= self._quiet or not self._is_harmless(at - self.start):
                    yield last
                if not is_all and trails.is_any:
                    break
            else:
                yield from self._passed(self.start + _STEP, left)
                return
            found, is_all, left = [it for it in self._places(True, False) if it > last], True, []

    def _passed(self, limit: int, left: List[int]) -> Iterator[Tuple[int, bool]]:
        """Takes the plain values in front of a place that are left, but for those that begin in
        front of the end, which are told.
        """
        first = self._passed_over
        self._passed_over = last = bisect.bisect_left(left, limit, first)
        begun = bisect.bisect_left(left, self.end, first, last)
        yield from ((at, False) for at in left[first:begun])
        if begun < last:
            self._taken.update(left[begun:last])
            self.end = self._quiet = self.plain[left[last - 1]]

    def _is_harmless(self, at: int) -> bool:
        """Whether an import that is shown there is known to do no harm."""
        shown = None if self._is_hiding else shown_in(self.data, at)
        if shown is None:
            return False
        if shown not in self._harmless:
            self._harmless[shown] = not is_harmful_pair(shown)
        return self._harmless[shown]

    def _places(self, is_all: bool, are_passed: bool) -> List[Tuple[int, bool]]:
        """The places of the block: with texts that are in plain values, and without the places of
        these values.
        """
        start, plain = self.start, set(self._parts[0]) if are_passed else ()
        texts = begun(self.data, _other_masks(), [], [])[0] if is_all else self._outside()[0]
        places = [(start + at, False) for at in self._begun if at not in plain]
        places += [(start + at, True) for at in texts_at(self.data, texts) if at < _STEP]
        places.sort()
        return places

    def _outside(self) -> Tuple[List[int], ...]:
        """Where texts and streams may begin, but in plain values."""
        if self._shown is None:
            self._shown = begun(self.data, _other_masks(), *self._parts)
        return self._shown

    @property
    def gap(self) -> int:
        """The most bytes between two plain values."""
        begins, ends = self._parts
        last = min(len(self.data), _STEP) if begins else len(self.data)
        return max(at - end for at, end in zip([*begins, last], [0, *ends]))

    def packed(self, source: Source, budget: Budget) -> Iterator[Tuple[int, Source]]:
        """What may be packed and begins in the block, but in plain values: where that is, and what
        it unpacks to.
        """
        _, streams, endless, _ = self._outside()
        places = streams_begun(self.data, streams, endless, _STEP)
        yield from packed_in(source, self.start, self.data, [*places], budget)
        spelled = runs_in(self.data, _STEP, self._parts)
        yield from spelled_in(source, self.start, self.data, spelled, budget)


def blocks(
    source: Source, budget: Budget, hidden: _Parts, values: Values
) -> Iterator[Block]:
    """The blocks of a source, with zeros for parts that are hidden."""
    begins, ends = hidden
    for start in range(0, source.size, _STEP):
        data = source.hold(start, _STEP + LONGEST)
        budget.spend(len(data) // _SEARCHED_AT)
        first, last = bisect.bisect(ends, start), bisect.bisect_left(begins, start + len(data))
        if first < last:
            data = blanked(data, start, begins[first:last], ends[first:last])
        yield Block(start, data, first < last, values)


def shown_in(data: bytes, at: int) -> Optional["Names"]:
    """The names of an import that stands at a place of these bytes, if they are shown there."""
    found = _SHOWN.match(data, at)
    if found is None:
        return None
    by_lines, name, size, module, behind, own = found.groups()
    if by_lines is not None:
        return by_lines, name
    return (module, own) if len(module) == size[0] and len(own) == behind[0] else None


def _imports_shown(block: bytes, ends: Tuple[List[int], List[int]]) -> Set[int]:
    """Where imports stand in a block that show what they import, by what stands in them."""
    found: Set[int] = set()
    for (begun_so, before, behind), places in zip(_IMPORTS, ends):
        parts = [(max(0, at - before), at + 1 + behind) for at in places]
        for start, end in joined_parts(parts):
            found.update(it.start() for it in begun_so.finditer(block, start, end))
    return found


def is_harmful_pair(names: "Names") -> bool:
    module, name = names
    if module is None or name is None:
        return False
    return is_harmful(module.decode("utf-8", "replace"), name.decode("utf-8", "replace"))


def joined_parts(parts: Sequence[_Part]) -> List[_Part]:
    """These parts, which are in order, with those as one that touch."""
    found: List[_Part] = []
    for start, end in parts:
        if found and start <= found[-1][1]:
            found[-1] = (found[-1][0], max(end, found[-1][1]))
        else:
            found.append((start, end))
    return found


def _imports_with_nul(block: bytes, ends: List[int]) -> Iterator[int]:
    """Where imports stand whose module has a NUL, by the ends of lines behind which a name is."""
    heads = suspect_heads()
    for end in ends:
        line = block.rfind(b"\n", 0, end) + 1
        if block.find(b"\0", line, end) < 0:
            continue
        for begun_so in _NULS:
            for front in begun_so.finditer(block, line, end):
                module = _WITH_NUL.match(block, front.end()) if front.group(1) in heads else None
                if module and is_suspect(module.group(1).decode()):
                    yield front.start()

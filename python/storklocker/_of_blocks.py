"""Frames and series of pandas: their blocks fill them."""

from __future__ import annotations

from typing import TYPE_CHECKING, Any, Dict, List, Tuple

from ._answers import Misused
from ._attributes import judge_attributes
from ._calls import wrong
from ._library import uncached
from ._of_pandas import forgetting, is_array, is_index, row
from ._of_sklearn import whole
from ._substitute import BECOMES_REAL, Remembering, Substitute, nothing
from ._weighing import keys_of

if TYPE_CHECKING:
    from ._reader import Reader

_MOST = 1 << 48
_MANAGERS = "pandas.core.internals.managers"


def _placed(given: Any) -> Any:
    """Places of the columns of a block, as an array or a slice says them."""
    import numpy

    if type(given) is numpy.ndarray:
        return given
    if type(given) is not slice:
        raise wrong("_unpickle_block")
    start, stop, step = given.start, given.stop, 1 if given.step is None else given.step
    if whole(step, -_MOST, _MOST) == 0:
        raise wrong("_unpickle_block")
    return range(whole(start, 0, _MOST), whole(stop, -1, _MOST), step)


def _check_places(reader: Reader, places: Any, count: int) -> None:
    """Whether these are as many places of columns, none twice."""
    import numpy

    placed = _placed(places)
    if type(placed) is range:
        if len(placed) != count or count and min(placed[0], placed[-1]) < 0:
            raise wrong("_unpickle_block")
        return
    is_one = places.dtype.kind == "i" and places.shape == (count,)
    is_one = is_one and id(places) not in reader.unbuilt
    if not is_one or len(numpy.unique(places)) != count or count and places.min() < 0:
        raise wrong("_unpickle_block")


def _block(reader: Reader, *given: Any) -> Any:
    """A block: a value for each of its places."""
    from pandas._libs import internals

    if len(given) != 3 or not is_array(reader, given[0]) or whole(given[2], 1, 2) != given[2]:
        raise wrong("_unpickle_block")
    values, ndim = given[0], given[2]
    own = getattr(values, "ndim", 1)
    if own > ndim:
        raise wrong("_unpickle_block")
    if ndim == 2:
        _check_places(reader, given[1], len(values) if own == 2 else 1)
    else:
        _check_places(reader, given[1], len(values))
    return internals._unpickle_block(values, _own(given[1]), ndim)


def _own(places: Any) -> Any:
    """Places that nothing else has: who writes to an array of the pickle doesn't change them."""
    return places if type(places) is slice else places.copy()


def _check_filled(reader: Reader, places: List[Any], count: int) -> None:
    """Whether the blocks of a frame have each of its columns once."""
    import numpy

    many = sum(map(len, places))
    reader.pay(16 * many)  # (a frame without rows may have any number of columns)
    if many == count:
        held = [numpy.arange(0), *map(_as_array, places)]
        if (numpy.sort(numpy.concatenate(held)) == numpy.arange(count)).all():
            return
    raise Misused("the blocks of a frame don't fill it")


def _as_array(places: Any) -> Any:
    import numpy

    if type(places) is range:
        return numpy.arange(places.start, places.stop, places.step)
    return getattr(places, "as_array", places)


def _manager(reader: Reader, *given: Any) -> Any:
    """A frame: blocks whose places are those of all its columns."""
    from pandas.core.internals import Block
    from pandas.core.internals.managers import BlockManager

    if len(given) != 2 or type(given[0]) is not tuple or type(given[1]) is not list:
        raise wrong("BlockManager")
    blocks, axes = given
    if len(axes) != 2 or not all(map(is_index, axes)):
        raise wrong("BlockManager")
    if not all(isinstance(it, Block) for it in blocks):
        raise wrong("BlockManager")
    if any(it.ndim != 2 or it.shape[1] != len(axes[1]) for it in blocks):
        raise wrong("BlockManager")
    _check_filled(reader, [it.mgr_locs for it in blocks], len(axes[0]))
    return BlockManager(blocks, list(axes))  # (the pickle may change its own list)


class _Manager(Remembering):
    """What has the blocks of a frame or a series, whose state may follow."""

    __slots__ = ()

    def new(self, reader: Any, *given: Any) -> Any:
        nothing(reader, self.name, given)
        kind = self.real()
        made = kind.__new__(kind)
        reader.unbuilt[id(made)] = made
        return made


def _series(reader: Reader, *given: Any) -> Any:
    raise wrong("SingleBlockManager")


def manager_state(reader: Reader, manager: Any, state: Any) -> Any:
    """The state of a series: one block, as long as its index; or that of a frame, as versions
    before 1.3 write it.
    """
    reader.unbuilt.pop(id(manager), None)  # (protocols 0 and 1 make one by `_reconstructor`)
    row: Any = state[3] if type(state) is tuple and len(state) == 4 else None
    inner = row.get("0.14.1") if type(row) is dict else None
    if type(inner) is not dict or set(inner) != {"axes", "blocks"}:
        raise _unknown()
    axes, blocks = inner["axes"], inner["blocks"]
    is_series = type(manager).__name__ == "SingleBlockManager"
    if type(axes) is not list or type(blocks) is not list or not all(map(is_index, axes)):
        raise _unknown()
    if len(axes) != (1 if is_series else 2) or is_series and len(blocks) != 1:
        raise _unknown()
    for block in blocks:
        if type(block) is not dict or set(block) != {"values", "mgr_locs"}:
            raise _unknown()
        _check_block(reader, block["values"], block["mgr_locs"], axes)
    if not is_series:
        _check_filled(reader, [_placed(block["mgr_locs"]) for block in blocks], len(axes[0]))
    made = {
        "axes": list(axes), "blocks": [{**it, "mgr_locs": _own(it["mgr_locs"])} for it in blocks]
    }
    return (*state[:3], {"0.14.1": made})


def _unknown() -> Misused:
    return Misused("the state of a frame or a series has an unexpected form")


def _check_block(reader: Reader, values: Any, places: Any, axes: List[Any]) -> None:
    """Whether a block has values as long as the last axis, for as many places."""
    shape = getattr(values, "shape", None) if is_array(reader, values) else None
    if type(shape) is not tuple or not 1 <= len(shape) <= len(axes) or shape[-1] != len(axes[-1]):
        raise _unknown()
    if len(axes) == 1:
        _check_places(reader, places, shape[0])
    else:
        _check_places(reader, places, shape[0] if len(shape) == 2 else 1)


TABLE: Dict[Tuple[str, str], Substitute] = dict(
    [
        row("pandas._libs.internals", "_unpickle_block", _block),
        *(((_MANAGERS, name), _Manager(f"{_MANAGERS}.{name}", forgetting(judged), BECOMES_REAL))
          for name, judged in (("BlockManager", _manager), ("SingleBlockManager", _series))),
    ]
)


def frame_state(reader: Reader, frame: Any, state: Any) -> Any:
    """The state of a frame or a series, whose class sets what it has: a name is hashed, and a dict
    is made of more attributes.
    """
    if type(state) is not dict:
        raise Misused("the state of a frame isn't a dict")
    judge_attributes(frame, state.items(), False)
    if any(id(it) in reader.unbuilt for it in state.values()):
        raise Misused("the state of a frame has a part without a state")
    known = ("_mgr", "_typ", "_metadata", "attrs", "_flags", *type(frame)._metadata)
    for name in state:
        if name not in known and hasattr(type(getattr(type(frame), str(name), None)), "__set__"):
            raise Misused("the state of a frame sets an attribute that it computes")
    if any(type(state.get(name, {})) is not dict for name in ("attrs", "_flags")):
        raise Misused("the state of a frame has attributes that aren't in a dict")
    keys_of(reader, [state.get("name")])
    return uncached(state)

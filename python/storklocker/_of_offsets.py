"""Offsets, intervals and places of pandas, and time zones of pytz and dateutil: what makes them
takes numbers, short texts, and the few objects that picklers give.
"""

from __future__ import annotations

import datetime
import functools
import os
import re
import sys
from typing import TYPE_CHECKING, Any, Callable, Dict, FrozenSet, Optional, Tuple

from ._answers import Misused
from ._attributes import judge_attributes
from ._calls import row as plain_row
from ._calls import wrong
from ._of_pandas import I8, is_array, is_index, is_whole, row
from ._of_sklearn import whole
from ._substitute import Class, Substitute

if TYPE_CHECKING:
    from ._reader import Reader

_OFFSETS = "pandas._libs.tslibs.offsets"
_INTERVALS = "pandas._libs.interval"
_MOST = 1 << 31
_HOLIDAYS = 10_000
_SHORT = 40
_DAY = 24 * 60
TICKS = "Tick Day Hour Minute Second Milli Micro Nano".split()
OFFSETS = (
    "BusinessDay BusinessMonthBegin BusinessMonthEnd BusinessHour CustomBusinessDay"
    " CustomBusinessHour CustomBusinessMonthBegin CustomBusinessMonthEnd MonthBegin MonthEnd"
    " SemiMonthBegin SemiMonthEnd YearBegin YearEnd BYearBegin BYearEnd QuarterBegin QuarterEnd"
    " BQuarterBegin BQuarterEnd Week WeekOfMonth LastWeekOfMonth FY5253 FY5253Quarter Easter"
).split()


def _is_part(given: Any) -> bool:
    """Whether this is a part of an offset: a small number, a week, a time of the day, a length."""
    if type(given) is int:
        return -_MOST < given < _MOST
    if type(given) is str:
        return len(given) <= _SHORT
    return given is None or type(given) in (bool, datetime.time, datetime.timedelta)


def _is_day(given: Any) -> bool:
    import numpy

    return type(given) in (numpy.datetime64, datetime.date, datetime.datetime)


def _is_row(given: Any) -> bool:
    """Whether these are holidays, or times of the day."""
    if type(given) not in (tuple, list) or len(given) > _HOLIDAYS:
        return False
    return all(_is_day(it) or type(it) is datetime.time for it in given)


def _offset(name: str) -> Callable[..., Any]:
    most = I8 if name in TICKS else _MOST

    def judged(reader: Reader, *given: Any) -> Any:
        if not 1 <= len(given) <= 9 or not is_whole((-most, most), (0, 1))(*given[:2]):
            raise wrong(name)
        if not all(_is_part(it) or _is_row(it) for it in given[2:]):
            raise wrong(name)
        reader.pay(1000 + 100 * sum(len(it) for it in given[2:] if type(it) in (tuple, list)))
        return getattr(sys.modules[_OFFSETS], name)(*given)

    return judged


def _interval_array(reader: Reader, *given: Any) -> Any:
    """An empty array of intervals, whose state follows."""
    from pandas.arrays import IntervalArray

    interval: Any = sys.modules[_INTERVALS]
    if len(given) != 3 or given[0] is not IntervalArray or type(given[1]) is not int:
        raise wrong("__pyx_unpickle_IntervalMixin")
    if given[2] is not None:
        raise wrong("__pyx_unpickle_IntervalMixin")
    made = vars(interval)["__pyx_unpickle_IntervalMixin"](*given)
    reader.unbuilt[id(made)] = made
    return made


def intervals_state(reader: Reader, array: Any, state: Any) -> Any:
    """The state of an array of intervals: a begin for each end, in arrays or indexes."""
    if reader.unbuilt.pop(id(array), None) is not array:
        raise Misused("the state of an array is set twice, or the pickle made it otherwise")
    if type(state) is not tuple or len(state) != 1 or type(state[0]) is not dict:
        raise Misused("the state of an array of intervals has an unexpected form")
    own: Dict[Any, Any] = state[0]
    if not {"_left", "_right"} <= set(own) <= {"_left", "_right", "_dtype", "_closed"}:
        raise Misused("the state of an array of intervals has an unexpected form")
    both = own["_left"], own["_right"]
    if not all(is_array(reader, it) or is_index(it) for it in both):
        raise Misused("the state of an array of intervals has an unexpected form")
    if any(getattr(it, "ndim", 1) != 1 for it in both) or len(both[0]) != len(both[1]):
        raise Misused("an array of intervals lacks the end of an interval")
    if type(both[0]) is not type(both[1]) or both[0].dtype != both[1].dtype:
        raise Misused("an array of intervals has ends of another type")
    if type(own.get("_closed", "")) is not str:
        raise Misused("the state of an array of intervals has an unexpected form")
    return (dict(own),)


def _blocks(reader: Reader, *given: Any) -> Any:
    """Places of a sparse array in blocks: one behind the other, none of them empty."""
    import numpy
    from pandas._libs.sparse import BlockIndex

    if len(given) != 3:
        raise wrong("BlockIndex")
    length = whole(given[0], 0, _MOST - 1)
    for it in given[1:]:
        is_one = type(it) is numpy.ndarray and id(it) not in reader.unbuilt
        if not is_one or it.dtype != numpy.int32 or it.ndim != 1 or len(it) != len(given[1]):
            raise wrong("BlockIndex")
    begin, many = (it.astype("i8") for it in given[1:])
    reader.pay(32 * len(begin))
    if len(begin) and (begin[0] < 0 or (many < 1).any() or begin[-1] + many[-1] > length):
        raise wrong("BlockIndex")
    if (begin[1:] < begin[:-1] + many[:-1]).any():
        raise wrong("BlockIndex")
    return BlockIndex(length, given[1].copy(), given[2].copy())


def date_offset_state(reader: Reader, offset: Any, state: Any) -> Any:
    """The state of an offset that `relativedelta` adds."""
    reader.unbuilt.pop(id(offset), None)
    deltas: Any = sys.modules.get("dateutil.relativedelta")
    if type(state) is not dict or not all(type(name) is str for name in state):
        raise Misused("the state of an offset has an unexpected form")
    judge_attributes(offset, state.items(), False)
    for name, value in state.items():
        if name == "_offset" and deltas and type(value) is deltas.relativedelta:
            continue
        if name in ("_cache", "kwds") or not _is_part(value) and not _is_weekday(value):
            raise Misused("the state of an offset has an unexpected form")
    return dict(state)


def _is_weekday(it: Any) -> bool:
    held: Any = sys.modules.get("dateutil._common")
    kinds = (held.weekday, sys.modules["dateutil.relativedelta"].weekday) if held else ()
    return type(it) in kinds


@functools.lru_cache(maxsize=1)
def _zones() -> FrozenSet[str]:
    """The names of pytz's own time zones: each is a file that it reads when it is asked for."""
    import pytz

    return frozenset(getattr(pytz, "_all_timezones_unchecked", pytz.all_timezones))


def _zone(reader: Reader, *given: Any) -> Any:
    """A time zone of pytz, which keeps each rule that it has made: only one that the zone has."""
    import pytz

    if len(given) not in (1, 4) or type(given[0]) is not str or given[0] not in _zones():
        raise wrong("_p")
    zone: Any = pytz.timezone(given[0])
    if len(given) == 1:
        return zone
    if not is_whole((-_MOST, _MOST), (-_MOST, _MOST))(*given[1:3]) or type(given[3]) is not str:
        raise wrong("_p")
    rule = (*(datetime.timedelta(seconds=it) for it in given[1:3]), given[3])
    found = getattr(zone, "_tzinfos", {}).get(rule)
    if found is None:
        raise Misused("a time zone has a rule that this version of its data lacks")
    return found


def _fixed(reader: Reader, *given: Any) -> Any:
    import pytz

    if len(given) != 1 or type(given[0]) is not int or not -_DAY < given[0] < _DAY:
        raise wrong("FixedOffset")
    return pytz.FixedOffset(given[0])


def _file(reader: Reader, *given: Any) -> Any:
    """A time zone of a file, which isn't read: its state follows."""
    if len(given) != 2 or given[0] is not None or type(given[1]) not in (str, type(None)):
        raise wrong("tzfile")
    return sys.modules["dateutil.tz.tz"].tzfile(*given)


_NAME = re.compile(r"[\w+-]+(/[\w+-]+){0,3}", re.ASCII)
_COMPARED = ("_trans_list_utc", "_trans_idx", "_ttinfo_list")


@functools.lru_cache(maxsize=1024)
def _of_file(path: str) -> Optional[Dict[str, Any]]:
    """What a time zone has that this machine keeps in a file where dateutil looks, or None."""
    zones: Any = sys.modules["dateutil.tz.tz"]
    folders = [f"{it}/" for it in zones.TZPATHS if path.startswith(f"{it}/")]
    is_name = any(_NAME.fullmatch(path[len(it):]) for it in folders)
    if not (is_name or path in zones.TZFILES) or not os.path.isfile(path):
        return None
    try:
        found: Dict[str, Any] = vars(zones.tzfile(path))
    except (OSError, ValueError):
        return None
    return found


def _is_plain(row: Any) -> bool:
    """Whether these are numbers or rules, which compare in no time."""
    kinds = (int, vars(sys.modules["dateutil.tz.tz"])["_ttinfo"])
    return type(row) in (list, tuple) and all(type(it) in kinds for it in row)


def zone_state(reader: Reader, zone: Any, state: Any) -> Any:
    """The state of a time zone of a file. Compiled code of pandas believes its rules, and keeps
    them under the name of the file until the process ends: only the rules that the file has.
    """
    path: Any = state.get("_filename") if type(state) is dict else None
    own = _of_file(path) if type(path) is str and len(path) <= 4 * _SHORT else None
    is_known = own is not None and all(_is_plain(state.get(name)) for name in _COMPARED)
    if own is None or not is_known or any(state[it] != own.get(it) for it in _COMPARED):
        raise Misused("a time zone has rules that its file here lacks")
    return dict(own)


TABLE: Dict[Tuple[str, str], Substitute] = dict(
    [
        *(row(_OFFSETS, name, _offset(name)) for name in (*TICKS, *OFFSETS)),
        row(_INTERVALS, "__pyx_unpickle_IntervalMixin", _interval_array),
        row("pandas._libs.sparse", "BlockIndex", _blocks),
        plain_row("pytz", "_p", _zone),
        plain_row("pytz", "FixedOffset", _fixed),
        plain_row("dateutil.tz.tz", "tzfile", _file),
        *((("dateutil.tz.tz", it), Class(f"dateutil.tz.tz.{it}")) for it in ("tzutc", "tzoffset")),
    ]
)

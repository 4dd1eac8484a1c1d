"""Compiled code of pandas: indexes of arrays, and values of numbers."""

from __future__ import annotations

import datetime
import itertools
import re
import sys
from typing import TYPE_CHECKING, Any, Callable, Dict, Tuple

from ._answers import Misused
from ._attributes import judge_attributes
from ._calls import row as plain_row
from ._calls import wrong
from ._library import uncached
from ._of_sklearn import whole
from ._substitute import Substitute
from ._weighing import SCALARS, items_as_keys, keys_of

if TYPE_CHECKING:
    from ._reader import Reader

_MOST = 1 << 48
I8 = (1 << 63) - 1
_INDEXES = {
    "data", "name", "names", "start", "stop", "step", "levels", "codes", "sortorder", "freq", "tz",
    "left", "right", "closed",
}
MOST_KEPT, LONGEST_KEPT = 1000, 200
"""How many types that pickles have made pandas may keep, and the longest name of one."""


def forgetting(judged: Callable[..., Any]) -> Callable[..., Any]:
    """Has pandas forget the types that it would keep until the process ends, if they are many."""
    def called(reader: Reader, *given: Any) -> Any:
        types: Any = sys.modules.get("pandas.core.dtypes.dtypes")
        kinds = (types.PeriodDtype, types.IntervalDtype) if types else ()
        held = [(kept, len(kept)) for kept in map(kept_by, kinds)]
        try:
            return judged(reader, *given)
        finally:
            for kept, before in held:
                more = max(0, len(kept) - before)
                for key in list(itertools.islice(reversed(kept), more)):
                    if len(kept) > MOST_KEPT or len(str(key)) > LONGEST_KEPT:
                        kept.pop(key, None)

    return called


def kept_by(kind: Any) -> Dict[Any, Any]:
    """What a class of types keeps; before pandas 1.3 it has another name."""
    name = "_cache_dtypes" if hasattr(kind, "_cache_dtypes") else "_cache"
    kept: Dict[Any, Any] = getattr(kind, name)
    return kept


def row(module: str, name: str, judged: Callable[..., Any]) -> Tuple[Any, Substitute]:
    return plain_row(module, name, forgetting(judged))


def is_array(reader: Reader, it: Any) -> bool:
    """Whether this is an array, of NumPy or of pandas, whose state is set."""
    import numpy
    from pandas.api.extensions import ExtensionArray

    is_one = type(it) is numpy.ndarray or isinstance(it, ExtensionArray)
    return is_one and id(it) not in reader.unbuilt


def is_whole(*bounds: Tuple[int, int]) -> Callable[..., bool]:
    """Says whether values are whole numbers within these bounds."""
    return lambda *given: len(given) <= len(bounds) and all(
        type(it) in (int, bool) and least <= it <= most for it, (least, most) in zip(given, bounds)
    )


def _index_words(reader: Reader, given: Tuple[Any, ...]) -> Tuple[Any, Dict[str, Any]]:
    """The class of an index and what it is made from."""
    import pandas

    if len(given) != 2 or not isinstance(given[0], type) or type(given[1]) is not dict:
        raise wrong("_new_Index")
    kind, words = given
    if not issubclass(kind, pandas.Index) or not _INDEXES >= set(words):
        raise wrong("_new_Index")
    for word in ("start", "stop", "step"):
        if word in words:
            whole(words[word], -_MOST, _MOST)
    zone, freq = words.get("tz"), words.get("freq")
    if not (zone is None or isinstance(zone, datetime.tzinfo)):  # (a text may name a file)
        raise wrong("_new_Index")
    if not (freq is None or _is_offset(freq)):
        raise wrong("_new_Index")
    if "data" in words:
        _check_data(reader, kind, words["data"], freq)
    for word in ("data", "left", "right"):
        if word in words:
            _pay_for(reader, words[word])
    names = words.get("names", [])
    if type(names) is not list:
        raise wrong("_new_Index")
    keys_of(reader, [words.get("name"), *names])
    if words.get("sortorder") is not None:
        whole(words["sortorder"], -_MOST, _MOST)
    if "levels" in words or "codes" in words:
        return kind, {**words, **_levels(reader, words)}
    return kind, dict(words)


def _check_data(reader: Reader, kind: Any, data: Any, freq: Any) -> None:
    """Judges the array of an index: pandas would make times of texts, and compares each time of a
    frequency with the one before.
    """
    import pandas

    if not (is_array(reader, data) or is_index(data)):
        raise wrong("_new_Index")
    if getattr(data.dtype, "hasobject", False) and kind is not pandas.Index:
        raise wrong("_new_Index")
    if freq is not None:
        reader.step(len(data) * (_TIMED + (abs(freq.n) if _is_repeated(freq) else 0)))


def _is_repeated(freq: Any) -> bool:
    """Whether an offset is added as often as it says."""
    names = {base.__name__ for base in type(freq).__mro__}
    return "RelativeDeltaOffset" in names or type(freq).__name__ == "DateOffset"


def _pay_for(reader: Reader, it: Any) -> None:
    """Counts what pandas may copy of an array that the pickle gives again, or of what is longer
    than its pickle.
    """
    if id(it) in reader.used or type(it).__name__ in _LONG or is_index(it):
        reader.pay(16 * len(it))
    reader.used[id(it)] = it


_TIMED = 16
"""The steps that a date takes of an index whose frequency is said."""
_LONG = ("SparseArray", "IntervalArray")
"""Arrays that may be of few values, or of indexes."""


def is_index(it: Any) -> bool:
    import pandas

    return isinstance(it, pandas.Index)


def _levels(reader: Reader, words: Dict[str, Any]) -> Dict[str, Any]:
    """The levels and codes of an index of several levels, which pandas takes as they are. Nothing
    else has these codes: who writes to what a pickle gives doesn't change them.
    """
    import numpy

    levels, codes = words.get("levels"), words.get("codes")
    if type(levels) is not list or type(codes) is not list or len(levels) != len(codes):
        raise wrong("_new_Index")
    made = []
    for level, code in zip(levels, codes):
        if type(code) is not numpy.ndarray or code.dtype.kind != "i" or code.ndim != 1:
            raise wrong("_new_Index")
        if not is_index(level) or len(code) != len(codes[0]) or id(code) in reader.unbuilt:
            raise wrong("_new_Index")
        _judge_keys(reader, level)
        reader.pay(code.nbytes)
        own = numpy.array(code, code.dtype.newbyteorder("="))
        if len(own) and (own.min() < -1 or own.max() >= len(level)):
            raise wrong("_new_Index")
        made.append(own)
    return {"levels": list(levels), "codes": made}


def _judge_keys(reader: Reader, level: Any) -> None:
    """Judges the objects of a level, which before 1.3 pandas hashes, and later whoever asks it."""
    import numpy
    import pandas

    if level.dtype.kind == "O" and not isinstance(level, pandas.MultiIndex):
        held = getattr(level._values, "_ndarray", level._values)
        if isinstance(held, numpy.ndarray) and held.dtype.hasobject:
            items_as_keys(reader, held.ravel().tolist())


def _index(reader: Reader, *given: Any) -> Any:
    from pandas.core.indexes import base

    return base._new_Index(*_index_words(reader, given))


def _times(reader: Reader, *given: Any) -> Any:
    from pandas.core.indexes import datetimes

    return datetimes._new_DatetimeIndex(*_index_words(reader, given))


def _intervals(reader: Reader, *given: Any) -> Any:
    from pandas.core.indexes import interval

    kind, words = _index_words(reader, given)
    if not all(is_index(words.get(word)) for word in ("left", "right")):
        raise wrong("_new_IntervalIndex")
    if type(words.get("closed", "")) is not str or set(words) - {"left", "right", "closed", "name"}:
        raise wrong("_new_IntervalIndex")
    return interval._new_IntervalIndex(kind, words)


def _empty(module: str, base: str) -> Callable[..., Any]:
    """Cython's function that makes an empty array of pandas, whose state follows."""
    name = f"__pyx_unpickle_{base}"

    def judged(reader: Reader, *given: Any) -> Any:
        own = vars(sys.modules[module])
        if len(given) != 3 or not isinstance(given[0], type) or type(given[1]) is not int:
            raise wrong(name)
        if not issubclass(given[0], own[base]) or given[2] is not None:
            raise wrong(name)
        made = own[name](*given)
        reader.unbuilt[id(made)] = made
        return made

    return judged


def _sparse(reader: Reader, *given: Any) -> Any:
    import numpy
    from pandas._libs.sparse import IntIndex

    if len(given) != 2 or type(given[1]) is not numpy.ndarray or id(given[1]) in reader.unbuilt:
        raise wrong("IntIndex")
    places = given[1]
    if places.dtype != numpy.int32 or places.ndim != 1:
        raise wrong("IntIndex")
    return IntIndex(whole(given[0], 0, (1 << 31) - 1), places.copy())


def _value(module: str, name: str, fits: Callable[..., bool]) -> Tuple[Any, Substitute]:
    def judged(reader: Reader, *given: Any) -> Any:
        if not fits(*given):
            raise wrong(name)
        return getattr(sys.modules[module], name)(*given)

    return row(module, name, judged)


def _is_offset(it: Any) -> bool:
    from pandas._libs.tslibs import BaseOffset

    return isinstance(it, BaseOffset)


def _is_timestamp(*given: Any) -> bool:
    if len(given) not in (3, 4) or not is_whole((-I8 - 1, I8), (0, 14))(given[0], *given[3:]):
        return False
    is_zone = given[2] is None or isinstance(given[2], datetime.tzinfo)
    return is_zone and (given[1] is None or _is_offset(given[1]))


def _is_period(*given: Any) -> bool:
    return len(given) == 3 and given[0] is None and _is_offset(given[1]) and (
        is_whole((-I8 - 1, I8))(given[2])
    )


def _is_interval(*given: Any) -> bool:
    import numpy

    ends = (int, float, numpy.number, datetime.datetime, datetime.timedelta)
    return len(given) == 3 and type(given[2]) is str and all(
        isinstance(it, ends) for it in given[:2]
    )


def _are_scalars(*given: Any) -> bool:
    return len(given) < 3 and all(type(it) in SCALARS for it in given)


def _is_periods(given: Any) -> bool:
    """Whether this is a frequency, or since pandas 2.2 the name of the type with it."""
    return _is_offset(given) or type(given) is str and _PERIODS.fullmatch(given) is not None


_PERIODS = re.compile(r"period\[[-\w]{1,40}\]", re.ASCII)
_TSLIBS = "pandas._libs.tslibs"
TABLE: Dict[Tuple[str, str], Substitute] = dict(
    [
        row("pandas.core.indexes.base", "_new_Index", _index),
        row("pandas.core.indexes.datetimes", "_new_DatetimeIndex", _times),
        row("pandas.core.indexes.interval", "_new_IntervalIndex", _intervals),
        *(row(at, f"__pyx_unpickle_{base}", _empty(at, base)) for at, base in (
            ("pandas._libs.arrays", "NDArrayBacked"), (f"{_TSLIBS}.period", "PeriodMixin"))),
        row("pandas._libs.sparse", "IntIndex", _sparse),
        _value("pandas._libs.interval", "Interval", _is_interval),
        _value(f"{_TSLIBS}.nattype", "__nat_unpickle", _are_scalars),
        _value(f"{_TSLIBS}.period", "Period", _is_period),
        _value(f"{_TSLIBS}.timedeltas", "_timedelta_unpickle", is_whole((-I8 - 1, I8), (0, 14))),
        _value(f"{_TSLIBS}.timedeltas", "Timedelta", is_whole((-I8 - 1, I8))),
        _value(f"{_TSLIBS}.timestamps", "Timestamp", _is_timestamp),
        _value(f"{_TSLIBS}.timestamps", "_unpickle_timestamp", _is_timestamp),
        _value("pandas.core.dtypes.dtypes", "PeriodDtype", lambda *given: (
            len(given) == 1 and _is_periods(given[0]))),
    ]
)


def array_state(reader: Reader, array: Any, state: Any) -> Any:
    """The state of a pandas array over one of NumPy."""
    import numpy
    from pandas.api.extensions import ExtensionDtype

    if reader.unbuilt.pop(id(array), None) is not array:
        raise Misused("the state of an array is set twice, or the pickle made it otherwise")
    if type(state) is not tuple or len(state) != 3 or type(state[2]) is not dict:
        raise Misused("the state of a pandas array has an unexpected form")
    held = [it for it in state[:2] if type(it) is numpy.ndarray and id(it) not in reader.unbuilt]
    kinds = [it for it in state[:2] if not isinstance(it, numpy.ndarray)]
    is_one = len(held) == len(kinds) == 1 and held[0].ndim > 0
    is_one = is_one and isinstance(kinds[0], (numpy.dtype, ExtensionDtype))
    is_one = is_one and id(kinds[0]) not in reader.unbuilt
    if not is_one or not set(state[2]) <= {"_freq", "_cache", "_readonly"}:
        raise Misused("the state of a pandas array has an unexpected form")
    name = type(array).__name__
    wanted = {"DatetimeArray": "M", "TimedeltaArray": "m", "PeriodArray": "i", "Categorical": "i",
              "StringArray": "O"}.get(name, held[0].dtype.kind)
    if held[0].dtype.kind != wanted or held[0].dtype.kind in "Mmi" and not held[0].dtype.isnative:
        raise Misused("the state of a pandas array has another type")
    if name == "Categorical" and held[0].size:
        reader.pay(held[0].nbytes)
        codes = held[0].copy()  # (which nothing else has)
        known: Any = getattr(kinds[0], "categories", None)
        if not is_index(known) or codes.min() < -1 or codes.max() >= len(known):
            raise Misused("a code of a pandas array has no category")
        return (codes, kinds[0], uncached(state[2]))
    return (*state[:2], uncached(state[2]))


def index_state(reader: Reader, index: Any, state: Any) -> Any:
    """Refuses each state of an index. Picklers set none, and others were judged by its length."""
    raise Misused("the state of a pandas index has an unexpected form")


def periods_state(reader: Reader, array: Any, state: Any) -> Any:
    """The state of an array of periods before pandas 1.2."""
    import numpy

    if reader.unbuilt.pop(id(array), None) is not array:
        raise Misused("the state of an array is set twice, or the pickle made it otherwise")
    if type(state) is not tuple or len(state) != 1 or type(state[0]) is not dict:
        raise Misused("the state of a pandas array has an unexpected form")
    judge_attributes(array, state[0].items(), True)
    held: Any = state[0].get("_data")
    if type(held) is not numpy.ndarray or id(held) in reader.unbuilt or held.dtype != numpy.int64:
        raise Misused("the state of a pandas array has another type")
    return (uncached(dict(state[0])),)


def check_masked(reader: Reader, array: Any) -> None:
    """Whether a pandas array with a mask has one of its length."""
    import numpy

    own = vars(array)
    data, mask = own.get("_data"), own.get("_mask")
    for it in (data, mask):
        if type(it) is not numpy.ndarray or id(it) in reader.unbuilt:
            raise Misused("the state of a pandas array has an unexpected form")
    if data.shape != mask.shape or mask.dtype != bool or data.dtype.hasobject:
        raise Misused("the state of a pandas array has an unexpected form")


def sparse_state(reader: Reader, array: Any, state: Any) -> Any:
    """The state of a sparse pandas array, with a value for each of its places. No tuple: pandas
    would hand a part of one to NumPy.
    """
    from pandas._libs.sparse import SparseIndex

    if type(state) is not dict:
        raise Misused("the state of a sparse pandas array has an unexpected form")
    judge_attributes(array, state.items(), False)
    places: Any = state.get("_sparse_index")
    held: Any = state.get("_sparse_values")
    is_one = isinstance(places, SparseIndex) and is_array(reader, held)
    if not is_one or len(held) != places.npoints:
        raise Misused("the state of a sparse pandas array has an unexpected form")
    return uncached(state)

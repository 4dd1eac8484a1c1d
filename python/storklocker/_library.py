"""Judges the states of values of Python's library, which hash, compare or show what they hold.

A state could give such an object a tuple that has itself many times, and its hash would take hours.
Picklers give most of these objects no state at all. Objects of pandas lose what they have cached:
compiled code takes each cache for a dict, and what is in it for what it has computed.
"""

from __future__ import annotations

import datetime
import functools
import re
from typing import Any, Callable, Dict, Optional, Tuple

from ._answers import Misused
from ._of_django import STATES
from ._of_jobs import CALLED

_STATELESS = frozenset(("fractions", "ipaddress", "pathlib", "pathlib._local"))
"""Modules whose objects are pickled with what they are called with."""
_BITS = 128
"""The bits of a UUID, and the most of a small number."""
_SHORT = 1000


def judge_of(kind: Any) -> Optional[Callable[[Any], bool]]:
    """What says whether a state is one that picklers write, for a class of the library."""
    module = kind.__module__
    if type(module) is not str or issubclass(kind, BaseException):
        return None
    if module in _STATELESS:
        return _refuse
    names = ((base.__module__, base.__qualname__) for base in kind.__mro__)
    return next((KNOWN[name] for name in names if name in KNOWN), None)


def known_state(kind: Any, state: Any) -> Any:
    """The state of an object. Refuses that of one of the library which no pickler writes."""
    judge = judge_of(kind)
    if judge is not None and not judge(state):
        raise Misused(f"the state of a {kind.__name__} has an unexpected form")
    if not _is_of_pandas(kind):
        return state
    is_pair = type(state) is tuple and len(state) == 2
    rows = state if is_pair else (state, None)
    if not all(it is None or isinstance(it, dict) for it in rows):  # (of old versions of pandas)
        raise Misused(f"the state of a {kind.__name__} has an unexpected form")
    return tuple(map(uncached, rows)) if is_pair else uncached(state)


@functools.lru_cache(maxsize=1024)
def _is_of_pandas(kind: Any) -> bool:
    return any(f"{base.__module__}.".startswith("pandas.") for base in kind.__mro__)


def uncached(attributes: Any) -> Any:
    """The attributes of an object of pandas, with a cache of which nothing is known."""
    if not isinstance(attributes, dict) or _CACHE not in attributes:
        return attributes
    if type(attributes[_CACHE]) is not dict:
        raise Misused("the cache of a pandas object isn't a dict")
    return {**attributes, _CACHE: {}}


_CACHE = "_cache"


def _refuse(state: Any) -> bool:
    return False


def _is_of_text(state: Any) -> bool:
    return type(state) is dict and type(state.get("data", "")) is str


def _is_of_uuid(state: Any) -> bool:
    if type(state) is not dict or type(state.get("int")) is not int:
        return False
    is_known = type(state.get("is_safe")) in (int, type(None))
    return is_known and 0 <= state["int"] < 1 << _BITS


def _is_of_lists(state: Any) -> bool:
    """Whether what Django takes for lists, whose items it copies, are lists."""
    held = state.get("_data", {}) if type(state) is dict else None
    return type(held) is dict and all(type(it) in (list, tuple) for it in held.values())


def _is_of_cookie(state: Any) -> bool:
    """Whether a cookie's parts, which Python shows to look for odd characters, are short."""
    return type(state) is dict and all(
        type(it) in (str, bool, float, type(None)) or type(it) is int and it.bit_length() <= _BITS
        for it in state.values()
    )


def _are_short(held: Any, more: Tuple[str, ...] = ()) -> bool:
    """Whether these are attributes that are hashed and compared in no time: small numbers, short
    texts, lengths of time, and objects of classes of these names, whose states are judged too.
    """
    return type(held) is dict and all(
        type(it) in (bool, float, type(None), datetime.timedelta)
        or type(it) is int and it.bit_length() <= _BITS
        or type(it) in (str, bytes) and len(it) <= _SHORT
        or type(it).__name__ in more and type(it).__module__.startswith("dateutil.")
        for it in held.values()
    )


def _is_of_delta(state: Any) -> bool:
    return _are_short(state, ("weekday",))


def _is_of_weekday(state: Any) -> bool:
    is_pair = type(state) is tuple and len(state) == 2 and state[0] is None
    return is_pair and _are_short(state[1])


def _is_of_zone(state: Any) -> bool:
    """Whether a time zone of a file has rows of small numbers, and rules for them."""
    if type(state) is not dict:
        return False
    rows = {name: it for name, it in state.items() if type(it) in (list, tuple)}
    inside = dict(enumerate(it for row in rows.values() for it in row))
    plain = {name: it for name, it in state.items() if name not in rows}
    return _are_short({**plain, **inside}, ("_ttinfo",)) if _are_texts(state) else False


def _are_texts(names: Any) -> bool:
    return all(type(name) is str for name in names)


def _has_no_clock(state: Any) -> bool:
    """Whether a crontab asks Celery what time it is, and no function of the pickle."""
    return type(state) is dict and all(it is None for it in state.values())


def _is_of_selector(state: Any) -> bool:
    """Whether columns are chosen by a text that is looked for in no more time than it is long."""
    pattern = state.get("pattern") if type(state) is dict else 0
    return pattern is None or type(pattern) is str and _QUICK_PATTERN.fullmatch(pattern) is not None


_QUICK_PATTERN = re.compile(r"[\w ^$.:/-]{0,200}", re.ASCII)
KNOWN: Dict[Tuple[str, str], Callable[[Any], bool]] = {
    **STATES,
    **dict.fromkeys(CALLED, _refuse),
    ("celery.schedules", "crontab"): _has_no_clock,
    ("collections", "UserString"): _is_of_text,
    ("dateutil._common", "weekday"): _is_of_weekday,
    ("dateutil.relativedelta", "relativedelta"): _is_of_delta,
    ("dateutil.tz.tz", "_ttinfo"): _are_short,
    ("dateutil.tz.tz", "tzfile"): _is_of_zone,
    ("dateutil.tz.tz", "tzoffset"): _are_short,
    ("dateutil.tz.tz", "tzutc"): _are_short,
    ("django.utils.datastructures", "MultiValueDict"): _is_of_lists,
    ("http.cookies", "Morsel"): _is_of_cookie,
    ("sklearn.compose._column_transformer", "make_column_selector"): _is_of_selector,
    ("uuid", "UUID"): _is_of_uuid,
}
"""What judges states, by the name of a class."""


@functools.lru_cache(maxsize=1)
def uuid_setter() -> Callable[[Any, Any], None]:
    """The method of UUIDs which sets their state, with a judge before it."""
    import uuid

    found: Any = vars(uuid.UUID)["__setstate__"]

    def set_state(receiver: Any, state: Any) -> None:
        known_state(uuid.UUID, state)
        found(receiver, state)

    return set_state

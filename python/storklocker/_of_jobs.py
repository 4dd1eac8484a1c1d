"""Substitutes for what Celery keeps of jobs: schedules and their entries, the results of tasks that
ran in place, workers, and the tasks that were revoked.

Their classes call what they are given, such as the clock of a schedule, or take it for numbers. So
they are called with what picklers give them, and get no state.
"""

from __future__ import annotations

import datetime
from typing import TYPE_CHECKING, Any, Callable, Dict, Tuple

from ._answers import Misused
from ._calls import row, wrong
from ._substitute import Substitute
from ._weighing import CONTAINERS, SCALARS, values

if TYPE_CHECKING:
    from ._reader import Reader

Judge = Callable[["Reader", Tuple[Any, ...]], None]
_BITS, _LONGEST, _MOST = 64, 1_000, 1_000
"""The most bits of a number, characters of a text of a schedule, and numbers in a place of one."""
_SECONDS = 10**9
"""The longest time between two runs of a task, and what limits are at most."""


def _is_text(it: Any) -> bool:
    return it is None or type(it) is str


def _is_number(it: Any) -> bool:
    return it is None or type(it) in (bool, float) or type(it) is int and it.bit_length() <= _BITS


def _are_numbers(it: Any) -> bool:
    return it is None or type(it) in (list, tuple) and all(map(_is_number, it))


def _is_place(it: Any) -> bool:
    """Whether this says at which minutes, hours or days a task runs."""
    if type(it) is str:
        return len(it) <= _LONGEST
    if type(it) in (list, tuple, set, frozenset):
        return len(it) <= _MOST and all(type(each) is int and _is_number(each) for each in it)
    return type(it) is int and _is_number(it)


def _is_interval(it: Any) -> bool:
    if type(it) is datetime.timedelta:
        return True
    return type(it) in (int, float) and 0 <= it <= _SECONDS


def judge_crontab(reader: Reader, given: Tuple[Any, ...]) -> None:
    """Refuses all but the five places of a crontab."""
    if len(given) != 5 or not all(map(_is_place, given)):
        raise wrong("crontab")


def judge_schedule(reader: Reader, given: Tuple[Any, ...]) -> None:
    """Refuses all but an interval: a clock is a function, which the schedule calls."""
    is_said = len(given) == 3 and _is_interval(given[0]) and type(given[1]) is bool
    if not is_said or given[2] is not None:
        raise wrong("schedule")


def judge_entry(reader: Reader, given: Tuple[Any, ...]) -> None:
    """Refuses what no entry of a schedule has. The schedule itself is looked at by `_entry`."""
    if len(given) != 8 or not all(map(_is_text, given[:2])) or type(given[3]) is not int:
        raise wrong("ScheduleEntry")
    if type(given[2]) is not datetime.datetime or not _is_number(given[3]):
        raise wrong("ScheduleEntry")
    if type(given[5]) not in (list, tuple) or any(type(it) is not dict for it in given[6:]):
        raise wrong("ScheduleEntry")
    if type(given[4]) in (*SCALARS, *CONTAINERS):
        raise wrong("ScheduleEntry")
    values(reader, given[5:])


def judge_result(reader: Reader, given: Tuple[Any, ...]) -> None:
    """Refuses what no task that ran in place has answered."""
    if len(given) != 4 or not all(map(_is_text, (given[0], *given[2:]))):
        raise wrong("EagerResult")
    values(reader, given[1:2])


_WORKER = (
    _is_text, _is_number, _is_number, _are_numbers, _is_number, _is_number, _is_number,
    _are_numbers, _is_text, _is_text, _is_text,
)
"""What judges the fields of a worker."""


def judge_worker(reader: Reader, given: Tuple[Any, ...]) -> None:
    """Refuses all but the fields of a worker: texts and numbers."""
    is_said = len(given) == len(_WORKER) and all(is_one(it) for is_one, it in zip(_WORKER, given))
    if not is_said or type(given[3]) is not list:
        raise wrong("Worker")


def judge_limited(reader: Reader, given: Tuple[Any, ...]) -> None:
    """Refuses all but limits, and a dict of texts and of the times at which they were put there.
    Below 0 a limit is never met.
    """
    if len(given) != 4 or type(given[2]) is not dict:
        raise wrong("LimitedSet")
    is_filled = all(type(key) is str and type(it) is float for key, it in given[2].items())
    limits = (*given[:2], given[3])
    if not is_filled or not all(type(it) in (int, float) and 0 <= it <= _SECONDS for it in limits):
        raise wrong("LimitedSet")
    reader.pay(128 * len(given[2]))


def _made_by(judge: Judge, module: str, name: str) -> Callable[..., Any]:
    def made(reader: Reader, *given: Any) -> Any:
        judge(reader, given)
        return vars(_module(module))[name](*given)

    return made


def _module(name: str) -> Any:
    import importlib

    return importlib.import_module(name)


def _entry(reader: Reader, *given: Any) -> Any:
    """An entry. Its class has a schedule tell the time, or sets an attribute of what is none."""
    judge_entry(reader, given)
    schedules = _module("celery.schedules")
    if type(given[4]) not in (schedules.schedule, schedules.crontab):
        raise Misused("an entry of a schedule has none")
    return _module("celery.beat").ScheduleEntry(*given)


def _worker(reader: Reader, *given: Any) -> Any:
    """A worker with heartbeats of its own."""
    judge_worker(reader, given)
    reader.pay(8 * len(given[3]))
    return _module("celery.events.state").Worker(*given[:3], [*given[3]], *given[4:])


CALLED: Dict[Tuple[str, str], Judge] = {
    ("celery.beat", "ScheduleEntry"): judge_entry,
    ("celery.events.state", "Worker"): judge_worker,
    ("celery.result", "EagerResult"): judge_result,
    ("celery.schedules", "crontab"): judge_crontab,
    ("celery.schedules", "schedule"): judge_schedule,
    ("celery.utils.collections", "LimitedSet"): judge_limited,
}
"""What judges the calls of these names."""
_MADE = {("celery.beat", "ScheduleEntry"): _entry, ("celery.events.state", "Worker"): _worker}
TABLE: Dict[Tuple[str, str], Substitute] = dict(
    row(*pair, _MADE.get(pair) or _made_by(judge, *pair)) for pair, judge in CALLED.items()
)

"""Replaces the readers of `pickle` by a guard, and judges the imports of other readers."""

from __future__ import annotations

import contextlib
import sys
import threading
from typing import Any, Iterable, Iterator, NamedTuple, Tuple

from .._guard import Guard
from .._storklocker import AuditHook
from .dask_client import watch_clients
from .holders import others, paths_of
from .standing import leave, stand, standing
from .state import INSTALLED, LOGGER, NOW, State, settle
from .trust import asking, is_calling, reported


class Installed(NamedTuple):
    """The result of `install`.

    replaced: the names in modules and classes that it has replaced.
    left: the places that still hold a reader of `pickle`, which it can't replace. A load through
        one of them isn't checked whole; each of its imports is judged when it happens.
    """

    replaced: Tuple[str, ...]
    left: Tuple[str, ...]


_CHANGING = threading.RLock()


def install(guard: Guard, *, own: Iterable[str] = ()) -> Installed:
    """Guards every load of this interpreter from now on.

    Call it at the start of the program, before other modules are imported:

        storklocker.install(storklocker.Guard.from_file("list.toml"))

    guard: the Guard. With `enforce=False` it loads everything, and reports what it would refuse.
    own: modules that load data from other processes of this program, and whose loads stay
        unchecked, in addition to multiprocessing, concurrent.futures and loky.

    Returns an `Installed`, and logs what it couldn't replace at WARNING. Processes that
    multiprocessing starts are guarded too.
    """
    return _begin(State(_checked(guard), own))


def _begin(state: State) -> Installed:
    with _CHANGING:
        changes = stand()
        is_auditing = _audits()
        INSTALLED.append(state)
        _permit()
        _guard_children()
        watch_clients()
        left = tuple(sorted(set(others(changes, standing().values()))))
    if not is_auditing:
        left += ("other readers: this Python has no audit events",)
    for place in left:
        LOGGER.warning("storklocker.install does not replace %s", place)
    return Installed(paths_of(changes), left)


def _end(state: State) -> None:
    with _CHANGING:
        INSTALLED.remove(state)
        _permit()
        if not INSTALLED:
            leave()


@contextlib.contextmanager
def installed(guard: Guard, *, own: Iterable[str] = ()) -> Iterator[Installed]:
    """`install` for a block, in all threads. If blocks overlap, the one that began last applies.

        >>> with storklocker.installed(storklocker.Guard(storklocker.AllowList([]))):
        ...     pickle.loads(b"cos\\nsystem\\n.")
        Traceback (most recent call last):
        storklocker._answers.Refused: no at 0: ImportOffList("os","system") (Dangerous: It runs a
        command. Don't list it)
    """
    state = State(_checked(guard), own)
    done = _begin(state)
    try:
        yield done
    finally:
        _end(state)


def _checked(guard: Guard) -> Guard:
    if not isinstance(guard, Guard):
        raise TypeError(f"guard must be a Guard, not {guard!r}")
    return guard


def _audits() -> bool:
    """Adds the audit hook, which stays for the life of the process."""
    if not hasattr(sys, "addaudithook"):
        return False
    if _HOOK.judge is None:
        _HOOK.judge = _judge
        sys.addaudithook(_HOOK.audit)
    return True


def _judge(words: Tuple[Any, ...]) -> None:
    """Judges an import that a reader asks for, whichever reader it is."""
    state, (module, name) = NOW.state, words
    frame = asking(sys._getframe(1))  # (behind it is the reader)
    if state is None or is_calling(frame, reported) or state.permits((module, name)):
        return
    if not state.frees(frame):
        state.refuse((module, name))


def _permit() -> None:
    """Has the innermost guard apply, also to what the audit hook sees."""
    settle()
    state = NOW.state
    _HOOK.permitted = state.listed if state is not None and state.is_lasting else state


_HOOK = AuditHook()
"""Sees each event of the interpreter, so it does no more than look an import up."""


class _Child:
    """Is part of what a process of multiprocessing loads first, and installs the guard there."""

    def __init__(self, state: State) -> None:
        self._words = (state.guard.for_children(), tuple(state.own))

    def __reduce__(self) -> Tuple[Any, ...]:
        return (_install_in_child, self._words)


def _install_in_child(guard: Guard, own: Tuple[str, ...]) -> None:
    if not INSTALLED:  # the main module may have installed it already
        install(guard, own=own)


def _guard_children() -> None:
    """Has multiprocessing hand the guard to the processes that it doesn't fork."""
    from multiprocessing import spawn

    plain = spawn.get_preparation_data
    if getattr(plain, "_is_guarding", False):
        return

    def get_preparation_data(name: str) -> Any:
        data = plain(name)
        if INSTALLED:
            data["storklocker"] = _Child(INSTALLED[-1])
        return data

    get_preparation_data._is_guarding = True  # type: ignore[attr-defined]
    spawn.get_preparation_data = get_preparation_data

"""Blocks that load pickles unchecked, and the frames that ask for a load."""

from __future__ import annotations

import contextlib
import contextvars
import pickle
import sys
import weakref
from types import FrameType
from typing import Any, Callable, Dict, Iterator, Optional, Tuple


class Unlisted(pickle.UnpicklingError):
    """A reader that bypasses the guard made an import that isn't on the list. Its earlier calls,
    all to listed names, have run.
    """


class _Block:
    """The trusted blocks of a frame that are open."""

    __slots__ = ("frame", "depth", "task", "__weakref__")

    def __init__(self, frame: FrameType) -> None:
        self.frame: Optional[FrameType] = frame
        self.depth, self.task = 0, _task_now()

    def __del__(self) -> None:
        held = _OPEN.get(id(self.frame))
        if held is not None and held() in (None, self):
            del _OPEN[id(self.frame)]

    def awaits(self) -> bool:
        """Whether the task of this block awaits in it what other tasks or threads do."""
        task = self.task
        if self.frame is None or task is None or task.done() or task is _task_now():
            return False
        return any(frame is self.frame for frame in _awaiting(task.get_coro()))


_OPEN: Dict[int, weakref.ReferenceType[_Block]] = {}
"""The blocks that are open, by the id of their frame. A block that never ends goes with its frame.
"""
_BEGUN: contextvars.ContextVar[Tuple[_Block, ...]] = contextvars.ContextVar(
    "storklocker.trusted", default=()
)
"""Those of tasks, so that the tasks that they start in a block are known."""


def _task_now() -> Any:
    asyncio: Any = sys.modules.get("asyncio")
    try:
        return asyncio.current_task()
    except (AttributeError, RuntimeError):  # there is no loop
        return None


def _awaiting(running: Any) -> Iterator[Any]:
    """The frames of a coroutine and of those that it awaits."""
    while running is not None:
        yield getattr(running, "cr_frame", None) or getattr(running, "gi_frame", None)
        running = getattr(running, "cr_await", None) or getattr(running, "gi_yieldfrom", None)


def _block_of(frame: FrameType) -> Optional[_Block]:
    held = _OPEN.get(id(frame))
    block = None if held is None else held()
    return block if block is not None and block.frame is frame else None


class _Trusted(contextlib.ContextDecorator):
    """A trusted block."""

    def __init__(self) -> None:
        self._blocks: Tuple[_Block, ...] = ()

    def _recreate_cm(self) -> _Trusted:
        return _Trusted()

    def __enter__(self) -> None:
        frame = sys._getframe(1)
        while frame.f_back is not None and frame.f_globals.get("__name__") == "contextlib":
            frame = frame.f_back  # (an ExitStack enters for another frame)
        block = _block_of(frame) or _Block(frame)
        block.depth += 1
        _OPEN[id(frame)] = weakref.ref(block)
        if block.task is not None:
            _BEGUN.set((*_BEGUN.get(), block))
        self._blocks += (block,)

    def __exit__(self, *raised: Any) -> None:
        block, self._blocks = self._blocks[-1], self._blocks[:-1]
        block.depth -= 1
        if block.depth == 0:
            _OPEN.pop(id(block.frame), None)
            block.frame = None  # (tasks that were started in it may go on for long)
            if block.task is not None:
                _BEGUN.set(tuple(each for each in _BEGUN.get() if each is not block))


def trusted() -> _Trusted:
    """Loads pickles unchecked within the block, which is for pickles that the program wrote itself.

        >>> with storklocker.installed(storklocker.Guard(storklocker.AllowList([]))):
        ...     with storklocker.trusted():
        ...         pickle.loads(b"cdatetime\\ndate\\n.")
        <class 'datetime.date'>

    It covers the calls of the frame that enters it, and the tasks that this frame starts and awaits
    in the block. Other threads and tasks, and code that resumes a generator inside the block, stay
    guarded.
    """
    return _Trusted()


def is_trusted(frame: FrameType) -> bool:
    """Whether a frame runs in a trusted block."""
    if not _OPEN:
        return False
    back: Optional[FrameType] = frame
    while back is not None:
        if _block_of(back) is not None:
            return True
        back = back.f_back
    return any(block.awaits() for block in _BEGUN.get())


def is_any_trusted() -> bool:
    """Whether a trusted block is open anywhere."""
    return bool(_OPEN)


def unchecked(read: Callable[..., Any], given: Tuple[Any, ...], named: Dict[str, Any]) -> Any:
    """Calls a reader of `pickle` for code that may load unchecked."""
    return read(*given, **named)


def reported(read: Callable[..., Any], given: Tuple[Any, ...], named: Dict[str, Any]) -> Any:
    """Calls a reader of `pickle` on what a guard that enforces nothing has looked at."""
    return read(*given, **named)


def is_calling(frame: FrameType, caller: Callable[..., Any]) -> bool:
    """Whether a frame is a call of one of these two functions."""
    return frame.f_code is caller.__code__


def asking(frame: FrameType) -> FrameType:
    """The frame that asks for a load, or for an import: behind those of the reader in Python."""
    while frame.f_globals is vars(pickle) and frame.f_back is not None:
        frame = frame.f_back
    return frame

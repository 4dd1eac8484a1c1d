"""The guards that are installed, of which the innermost applies."""

from __future__ import annotations

import logging
from types import FrameType
from typing import Any, Callable, Dict, FrozenSet, Iterable, List, Optional, Tuple, Type

from .. import _names
from .._answers import Verdict
from .._guard import Guard
from .._lists import AllowList
from .._reasons import Reason
from .._refusal import CONTEXT, Refusal
from .own import is_own
from .trust import Unlisted, is_trusted

LOGGER = logging.getLogger("storklocker")


class State:
    """A guard that is installed."""

    def __init__(self, guard: Guard, own: Iterable[str]) -> None:
        self.guard, self.own = guard, frozenset(own)
        self.is_lasting = type(guard).now is Guard.now
        """Whether the list stays as it is."""
        self._of = (guard.now(), permitted_by(guard.allow))
        self.admitting: Dict[Type[Any], Any] = {}
        """For a class of `pickle`, the one that checks what its instances load."""

    @property
    def listed(self) -> FrozenSet[Tuple[str, str]]:
        """The names that a reader may import that no guard has checked."""
        now, (held, listed) = self.guard.now(), self._of
        if now is not held:
            listed = permitted_by(now.allow)
            self._of = (now, listed)
        return listed

    def __contains__(self, pair: Any) -> bool:
        return pair in self.listed

    def permits(self, pair: Tuple[str, str]) -> bool:
        """Whether the list permits an import. With `fix_imports` a reader may name it as Python 2
        does, before it maps it.
        """
        if pair in self.listed:
            return True
        return self.guard.fix_imports and _names.renamed(pair) in self.listed

    def frees(self, frame: FrameType) -> bool:
        """Whether a frame may load anything."""
        return is_trusted(frame) or is_own(frame, self.own)

    def refuse(self, pair: Tuple[str, str]) -> None:
        """Reports an import of a reader that no guard has checked, and raises Unlisted."""
        guard = self.guard
        if guard.on_refusal is not None:
            verdict = Verdict(False, reason=Reason.ImportOffList, pair=pair)
            guard.on_refusal(Refusal(verdict, b"", CONTEXT.get(), guard.enforce))
        named = f"{pair[0]}.{pair[1]}"[:200]
        if guard.enforce:
            raise Unlisted(f"{named} is not on the list, and no guard has checked this pickle")
        LOGGER.warning("%s is not on the list, and no guard has checked this pickle", named)


def permitted_by(allow: AllowList) -> FrozenSet[Tuple[str, str]]:
    """The names of a list, but for those that stand for something else while a guard loads."""
    meant: Iterable[Tuple[str, str]] = allow.meant.substitutes if allow.meant else ()
    listed = frozenset(allow).union(allow.for_loading())
    return listed.difference(meant, map(_names.today, meant))


class _Now:
    """What applies now."""

    __slots__ = ("state", "refusal")

    def __init__(self) -> None:
        self.state: Optional[State] = None
        self.refusal: Optional[Callable[[bytes], Optional[Verdict]]] = None
        """Judges a short pickle, under a guard that loads what it accepts as it is."""


INSTALLED: List[State] = []
NOW = _Now()


def settle() -> None:
    """Has the innermost guard apply."""
    state = INSTALLED[-1] if INSTALLED else None
    NOW.refusal, NOW.state = None, state
    if state is not None and state.is_lasting and state.guard.enforce and state.guard.is_plain:
        NOW.refusal = state.guard.list_for(False).refusal

"""Tells `on_refusal` of what a guard refuses, and makes the exception for it."""

from __future__ import annotations

from typing import TYPE_CHECKING, Any

from . import _names
from ._answers import Misused, MoreBytes, Refused, Verdict
from ._hints import hint_of
from ._lists import STANDARD, within
from ._name_hints import origin_of
from ._refusal import CONTEXT, Refusal
from .telemetry import report

if TYPE_CHECKING:
    from ._guard import Guard


def told(guard: Guard, verdict: Verdict, data: bytes, length: int, start: int) -> Refused:
    """Reports a refusal, and returns its exception. `length` is the number of bytes of the input if
    `data` is only its front, `start` what the verdict counts its first byte as.
    """
    context = CONTEXT.get()
    refusal = Refusal(verdict, data, context, guard.enforce)
    report(refusal)
    if guard.on_refusal is not None:
        guard.on_refusal(refusal)
    origin = origin_of(context)
    if verdict.accepted:
        return MoreBytes(verdict, length or len(data), origin)
    if verdict.pair is not None:
        hint = _names.hint_of(verdict.pair, guard.allow, guard.fix_imports)
    else:
        hint = _hint_for(guard, verdict, data, start)
    return Refused(verdict, hint, origin)


def _hint_for(guard: Guard, verdict: Verdict, data: bytes, start: int) -> str:
    """What to do about a refusal that isn't about a name."""
    if verdict.taken or len(data) >= guard.max_bytes:
        return f"it is longer than the guard's max_bytes, {guard.max_bytes:,}"
    limits = within(guard.limits, guard.allow.limits) or STANDARD
    has_substitutes = guard.has_substitutes
    return hint_of(
        verdict, lambda at, count: data[at : at + count], limits, start, has_substitutes
    )


class Misuses:
    """A block that loads an accepted pickle. Reports if that is stopped."""

    def __init__(self, guard: Guard, data: bytes) -> None:
        self._guard, self._data = guard, data

    def __enter__(self) -> None:
        pass

    def __exit__(self, kind: Any, error: Any, trace: Any) -> None:
        hook = self._guard.on_refusal
        if not isinstance(error, Misused) or error.is_told or hook is None and error.is_reported:
            return
        verdict = self._guard.judge(self._data)
        refusal = Refusal(verdict, self._data, CONTEXT.get(), True, str(error))
        if not error.is_reported:
            error.is_reported = True  # (the block may be in another one)
            report(refusal)
        if hook is not None:
            error.is_told = True
            hook(refusal)

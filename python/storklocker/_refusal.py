"""Reports of refusals to a service."""

from __future__ import annotations

import contextlib
import contextvars
import os
from typing import Any, Iterator, Tuple

from ._answers import Import, Verdict

CONTEXT: contextvars.ContextVar[Any] = contextvars.ContextVar(
    "storklocker.context", default=None
)


class Refusal:
    """The argument of `on_refusal`. It can be pickled.

        >>> def report(refusal):        # its `data` can be kept, and loaded under another list
        ...     print(refusal.size, "bytes:", refusal.verdict)
        >>> allow = storklocker.AllowList([])
        >>> guard = storklocker.Guard(allow, on_refusal=report, enforce=False)
        >>> guard.loads(b"cdatetime\\ndate\\n.")
        16 bytes: no at 0: ImportOffList("datetime","date")
        <class 'datetime.date'>

    verdict: the verdict of the checker. It accepts the pickle if more bytes followed it.
    data: the bytes of the pickle that were read; a pickled `Refusal` leaves them out.
    size: the number of these bytes.
    sha256: their SHA-256, in hexadecimal; computed on first access.
    missing: `missing` of the verdict.
    reason: the name of the reason, as `Counts` counts it.
    context: the value of `context` around the call; if there is none, the name of the file.
    enforced: False if the pickle is loaded in spite of the refusal.
    misused: how the pickle misuses a listed name, if `Misused` stopped the load of an accepted
        pickle; otherwise an empty text.
    """

    __slots__ = ("verdict", "data", "size", "context", "enforced", "misused", "_sha256")

    def __init__(
        self, verdict: Verdict, data: bytes, context: Any, enforced: bool, misused: str = ""
    ) -> None:
        self.verdict = verdict
        self.data = data
        self.size = len(data)
        self.context = context
        self.enforced = enforced
        self.misused = misused
        self._sha256 = ""

    @property
    def sha256(self) -> str:
        """The SHA-256 of the bytes, in hexadecimal."""
        if not self._sha256:
            import hashlib

            self._sha256 = hashlib.sha256(self.data).hexdigest()
        return self._sha256

    @property
    def missing(self) -> Tuple[Import, ...]:
        """The imports off the list; `verdict.missing_is_cut` says whether some are left out."""
        return self.verdict.missing

    @property
    def reason(self) -> str:
        """The name of the reason; `MoreBytes` if more bytes followed, `Misused` if a load was
        stopped.
        """
        if self.misused:
            return "Misused"
        reason = self.verdict.reason
        return "MoreBytes" if reason is None else reason.name

    def __repr__(self) -> str:
        why = self.misused or self.verdict.line(64)
        return f"Refusal({why!r}, size={self.size}, context={self.context!r})"

    def __reduce__(self) -> Tuple[Any, ...]:
        self.missing  # makes the verdict keep it
        words = (self.verdict, self.context, self.enforced, self.misused)
        return (_refusal_of, (*words, self.size, self.sha256))


def _refusal_of(
    verdict: Verdict, context: Any, enforced: bool, misused: str, *sums: Any
) -> Refusal:
    made = Refusal(verdict, b"", context, enforced, misused)
    made.size, made._sha256 = sums
    return made


@contextlib.contextmanager
def context(value: Any) -> Iterator[None]:
    """Sets the `context` of refusals within the block, for every guard: what is being loaded, such
    as the key of a cache entry.

        >>> with storklocker.context({"key": "cart-7"}):
        ...     storklocker.loads(b"cos\\nsystem\\n.", storklocker.AllowList([]))
        Traceback (most recent call last):
        storklocker._answers.Refused: no at 0: ImportOffList("os","system") (while loading {'key':
        'cart-7'}; Dangerous: It runs a command. Don't list it)
    """
    token = CONTEXT.set(value)
    try:
        yield
    finally:
        CONTEXT.reset(token)


@contextlib.contextmanager
def loaded_from(origin: Any) -> Iterator[None]:
    """Makes an origin the `context` within the block, unless the caller has set one."""
    if origin is None or CONTEXT.get() is not None:
        yield
    else:
        with context(origin):
            yield


def name_of(file: Any) -> Any:
    """The name of a file that is given by name or open, or None."""
    name = file if isinstance(file, (str, os.PathLike)) else getattr(file, "name", None)
    return os.fspath(name) if isinstance(name, (str, os.PathLike)) else None

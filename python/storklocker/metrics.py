"""Counts the pickles that a guard accepts and refuses, in Prometheus's text format.

    from storklocker.metrics import CountingGuard

    >>> from storklocker.metrics import CountingGuard
    >>> guard = CountingGuard(storklocker.AllowList([]))
    >>> guard.loads(b"N.")
    >>> guard.counts.accepted, guard.counts.refused
    (1, {})
    >>> print(guard.counts.text().splitlines()[2])
    storklocker_accepted_total 1
"""

from __future__ import annotations

import functools
import os
import threading
import weakref
from typing import Any, Callable, Dict, Optional, Tuple, Type, cast

from ._answers import Refused
from ._guard import Guard
from ._refusal import Refusal
from .telemetry import count


_all: weakref.WeakSet[Counts] = weakref.WeakSet()


def _renew_locks() -> None:
    for counts in list(_all):
        counts._lock = threading.Lock()


if hasattr(os, "register_at_fork"):  # a thread of the parent may hold the lock
    os.register_at_fork(after_in_child=_renew_locks)


class Counts:
    """The number of accepted pickles, and of refused ones by reason. Threads may share it."""

    def __init__(self) -> None:
        self._lock = threading.Lock()
        _all.add(self)
        self._accepted = 0
        self._refused: Dict[str, int] = {}

    @property
    def accepted(self) -> int:
        """The number of accepted pickles, including those whose load raised."""
        return self._accepted

    @property
    def refused(self) -> Dict[str, int]:
        """The number of refused pickles by the name of the reason; `MoreBytes` if more bytes
        followed; `Misused` if the load of an accepted one was stopped.
        """
        with self._lock:
            return dict(self._refused)

    def accept(self) -> None:
        """Counts an accepted pickle."""
        with self._lock:
            self._accepted += 1
        count("accepted")

    def refuse(self, refusal: Refusal) -> None:
        """Counts a refused pickle, or the misuse of an accepted one. Can be the `on_refusal` of any
        guard.
        """
        self.refuse_for(refusal.reason)

    def refuse_for(self, name: str) -> None:
        """Counts a refused pickle under this name of a reason."""
        with self._lock:
            self._refused[name] = self._refused.get(name, 0) + 1

    def text(self) -> str:
        """The counts in Prometheus's text format, version 0.0.4."""
        lines = [
            "# HELP storklocker_accepted_total Pickles that the guard accepted.",
            "# TYPE storklocker_accepted_total counter",
            f"storklocker_accepted_total {self.accepted}",
            "# HELP storklocker_refused_total Pickles that the guard refused, by reason.",
            "# TYPE storklocker_refused_total counter",
        ]
        for reason, count in sorted(self.refused.items()):
            lines.append(f'storklocker_refused_total{{reason="{reason}"}} {count}')
        return "\n".join(lines) + "\n"


class SharedCounts(Counts):
    """Counts that `prometheus_client` has too, where all guards of a process are added up; and all
    processes, in its multiprocess mode. Raises ImportError without it.
    """

    def __init__(self) -> None:
        super().__init__()
        _shared()

    def accept(self) -> None:
        """Counts an accepted pickle."""
        super().accept()
        _shared()[0].inc()

    def refuse_for(self, name: str) -> None:
        """Counts a refused pickle under this name of a reason."""
        super().refuse_for(name)
        _shared()[1].labels(name).inc()


@functools.lru_cache(maxsize=None)
def _shared() -> Tuple[Any, Any]:
    """The counters of `prometheus_client`."""
    try:
        from prometheus_client import Counter
    except ImportError:
        needed = "needs prometheus_client: pip install 'storklocker[metrics]'"
        raise ImportError(f"SharedCountingGuard {needed}") from None
    accepted, refused = "Pickles that guards accepted.", "Pickles that guards refused, by reason."
    return (
        Counter("storklocker_accepted", accepted),
        Counter("storklocker_refused", refused, ["reason"]),
    )


class CountingGuard(Guard):
    """A `Guard` that counts in `counts`. A copy in another process has its own counts, from 0."""

    __slots__ = ("counts", "_hook", "_here")
    _kind: Type[Counts] = Counts

    def __init__(
        self, *given: Any, on_refusal: Optional[Callable[[Refusal], Any]] = None, **named: Any
    ) -> None:
        self.counts = self._kind()
        self._hook = on_refusal
        self._here = threading.local()
        super().__init__(*given, on_refusal=self._hear, **named)

    def __reduce__(self) -> Tuple[Any, ...]:
        make, words = super().__reduce__()
        return (make, tuple(self._hook if word == self._hear else word for word in words))

    def loads(self, data: Any, /, **named: Any) -> Any:
        """`Guard.loads`, counted."""
        if type(data) is not bytes:
            data = self._copied(data)
        self._here.refused = False
        try:
            return super().loads(data, **named)
        except Refused:
            self._here.refused = True
            raise
        finally:
            self._count()

    def _next_in(self, file: Any) -> Optional[bytes]:
        data = super()._next_in(file)
        if data is not None:
            self.counts.accept()
        return data

    def like(self, **changed: Any) -> Guard:
        made: Any = super().like(**{"on_refusal": self._hook, **changed})
        made.counts = self.counts
        return cast(Guard, made)

    def admitted(self, admit: Callable[[], int]) -> int:
        self._here.refused = False
        end = admit()
        self._count()
        return end

    def _count(self) -> None:
        """Counts a load as accepted unless it was refused, as enforce=False loads refused ones."""
        if not self._here.refused:
            self.counts.accept()

    def _hear(self, refusal: Refusal) -> None:
        self._here.refused = not refusal.misused
        self.counts.refuse(refusal)
        if self._hook is not None:
            self._hook(refusal)


class SharedCountingGuard(CountingGuard):
    """A `CountingGuard` whose counts `prometheus_client` has too: its multiprocess mode adds up the
    children of a prefork server, as `examples/serving/prefork.py` shows.
    """

    __slots__ = ()
    _kind = SharedCounts

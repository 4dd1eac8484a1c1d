"""Cache entries that a guard refuses: each is a miss, and is told of."""

from __future__ import annotations

import contextlib
import logging
import pickle
import threading
import time
from collections import OrderedDict
from typing import Any, Iterator

from .._guard import Guard
from .._answers import Refused
from .._refusal import CONTEXT
from ._loading import Loader

_LOG = logging.getLogger("storklocker")
_SECONDS = 60.0
_MOST = 1024


class Misses:
    """Tells of refused entries in the log, once a key and minute. A guard's `on_refusal` replaces
    that: it has heard of them already. What was accepted and raised is logged in any case.
    """

    def __init__(self, guard: Guard) -> None:
        self._is_heard = getattr(guard, "_hook", guard.on_refusal) is not None
        self._times: OrderedDict[str, float] = OrderedDict()
        self._lock = threading.Lock()

    def tell(self, key: Any, error: Exception) -> None:
        """Tells of an entry."""
        shown = f"{key!r:.200}"
        if not (self._is_heard and isinstance(error, Refused)) and self._is_due(shown):
            _LOG.warning("Cache entry %s was refused: %s", shown, error)

    def _is_due(self, shown: str) -> bool:
        now = time.monotonic()
        with self._lock:
            if now - self._times.get(shown, -_SECONDS) < _SECONDS:
                return False
            self._times[shown] = now
            self._times.move_to_end(shown)
            if len(self._times) > _MOST:
                self._times.popitem(last=False)
            return True


class CacheLoader(Loader):
    """A `Loader` for a cache. With a guard that doesn't enforce, refusals are told of, too.

    check_on_set: whether values are also checked when they are pickled.
    """

    def __init__(self, guard: Guard, check_on_set: bool = False) -> None:
        super().__init__(guard)
        self.misses = Misses(guard)
        self._is_silent = not (guard.enforce or self.misses._is_heard)
        self._check_on_set = check_on_set

    def loads(self, data: Any, **words: Any) -> Any:
        """`Loader.loads`, with what a guard without a hook would leave untold."""
        if self._is_silent:
            refused = self._guard.refusal_of(bytes(data))
            if refused is not None:
                self.misses.tell(CONTEXT.get(), refused)
        return super().loads(data, **words)

    def dumps(self, value: Any, *given: Any, **named: Any) -> bytes:
        """`pickle.dumps`. With `check_on_set` raises Refused for a value that wouldn't be loaded.
        """
        data = self._guard.dumps(value, *given, **named)
        if self._check_on_set:
            refused = self._guard.refusal_of(data)
            if refused is not None and self._guard.enforce:
                raise refused
        return data


@contextlib.contextmanager
def about(key: Any) -> Iterator[None]:
    """Makes the key of an entry the context of refusals."""
    token = CONTEXT.set(key)
    try:
        yield
    finally:
        CONTEXT.reset(token)


REFUSED = (pickle.UnpicklingError, EOFError)
"""What a `Loader` raises for bytes that aren't loaded."""

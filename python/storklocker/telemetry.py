"""Tells OpenTelemetry and the log of what guards refuse.

OpenTelemetry gets an event of the current span and a count for each refusal, and a count of what a
`CountingGuard` accepts, as soon as the service has imported its API. One line makes the log JSON,
with a line for each refusal:

    storklocker.telemetry.log_json()
"""

from __future__ import annotations

import contextlib
import functools
import json
import logging
import sys
import time
from typing import TYPE_CHECKING, Any, Dict, Optional, TextIO

if TYPE_CHECKING:
    from ._refusal import Refusal

_LOG = logging.getLogger("storklocker")
_KEY = "storklocker"
"""Under which a record of the log has what is told of a refusal."""
_NAMES = 20
"""The most names of a refusal that are told."""
_asked = False
"""Whether refusals are logged."""


class JsonFormatter(logging.Formatter):
    """Makes a line of JSON of each record: ASCII, whatever a pickle has in its names."""

    def format(self, record: logging.LogRecord) -> str:
        """The line."""
        moment = time.strftime("%Y-%m-%dT%H:%M:%S", time.gmtime(record.created))
        told: Dict[str, Any] = {
            "time": f"{moment}.{int(record.msecs):03}Z",
            "level": record.levelname,
            "logger": record.name,
            "message": record.getMessage(),
            **getattr(record, _KEY, {}),
        }
        if record.exc_info:
            told["exception"] = self.formatException(record.exc_info)
        return json.dumps(told, default=repr)


def log_json(stream: Optional[TextIO] = None) -> None:
    """Logs what the package has to say, and each refusal of a guard, as lines of JSON; to standard
    error, unless there is a stream.
    """
    global _asked
    handler = logging.StreamHandler(stream)
    handler.setFormatter(JsonFormatter())
    _LOG.handlers[:] = [it for it in _LOG.handlers if type(it.formatter) is not JsonFormatter]
    _LOG.addHandler(handler)
    _LOG.propagate = False
    _asked = True


def report(refusal: Refusal) -> None:
    """Tells of a refusal. What fails here changes nothing for the caller."""
    if _asked:
        with contextlib.suppress(Exception):
            told = {**_told(refusal), "sha256": refusal.sha256, "context": refusal.context}
            told["names"] = [f"{it.module}.{it.name}" for it in refusal.missing[:_NAMES]]
            _LOG.warning("%s", _why(refusal), extra={_KEY: told})
    if "opentelemetry" in sys.modules:
        with contextlib.suppress(Exception):
            told = {f"{_KEY}.{name}": value for name, value in _told(refusal).items()}
            trace: Any = sys.modules.get("opentelemetry.trace")
            if trace is not None:
                event = {**told, f"{_KEY}.verdict": _why(refusal)}
                trace.get_current_span().add_event(f"{_KEY}.refused", event)
            count("refused", reason=refusal.reason)


def count(what: str, **words: str) -> None:
    """Adds one to a counter of OpenTelemetry, if the service has imported it."""
    metrics = sys.modules.get("opentelemetry.metrics")
    if metrics is not None:
        with contextlib.suppress(Exception):
            _counter(metrics, what).add(1, words)


@functools.lru_cache(maxsize=None)
def _counter(metrics: Any, what: str) -> Any:
    text = f"Pickles that guards {what}."
    return metrics.get_meter(_KEY).create_counter(f"{_KEY}.{what}", description=text)


def _why(refusal: Refusal) -> str:
    return refusal.misused or refusal.verdict.line(64)


def _told(refusal: Refusal) -> Dict[str, Any]:
    return {
        "reason": refusal.reason,
        "at": refusal.verdict.at,
        "size": refusal.size,
        "enforced": refusal.enforced,
    }

"""What the daemon counts, in Prometheus's text format."""

from __future__ import annotations

from typing import Any, Iterator, Mapping, Tuple

from .connections import Connections
from .desk import Desk

_PREFIX = "storklocker_serve"


def text_of(
    desk: Desk, connections: Connections, answered: Mapping[Tuple[str, int], int]
) -> str:
    """The counters and gauges, after those of `storklocker.metrics`."""
    return desk.counts.text() + "".join(f"{it}\n" for it in _lines(desk, connections, answered))


def _lines(
    desk: Desk, connections: Connections, answered: Mapping[Tuple[str, int], int]
) -> Iterator[str]:
    name = f"{_PREFIX}_requests_total"
    yield f"# HELP {name} Requests over HTTP, by path and status."
    yield f"# TYPE {name} counter"
    for (path, status), count in sorted(answered.items()):
        yield f'{name}{{path="{path}",status="{status}"}} {count}'
    for it, kind, what, value in (
        ("read_bytes_total", "counter", "Bytes of bodies that were read.", desk.read),
        ("worker_deaths_total", "counter", "Workers that died.", desk.workers.deaths),
        ("turned_away_total", "counter", "Connections over the limit.", connections.turned_away),
        ("workers", "gauge", "Workers that are ready.", desk.workers.alive),
        ("connections", "gauge", "Connections.", connections.count),
        ("stale_lists", "gauge", "Whether the lists could not be read again.", int(desk.is_stale)),
        ("asking", "gauge", "Requests that are being answered.", connections.busy),
    ):
        yield from _measure(f"{_PREFIX}_{it}", kind, what, value)


def _measure(name: str, kind: str, what: str, value: Any) -> Iterator[str]:
    yield f"# HELP {name} {what}"
    yield f"# TYPE {name} {kind}"
    yield f"{name} {value}"

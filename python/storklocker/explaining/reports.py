"""What dangerous pickles would do, for the reports of a scan that people read."""

from __future__ import annotations

import itertools
import os
from typing import Dict, Iterable, Iterator, Tuple

from ..scanning.budget import TooMuch
from ..scanning.report import Report
from ..scanning.severity import DANGER
from ..scanning.source import source_of
from .pickles import followed_in
from .printing import part_of

FILES, LINES = 200, 20
"""The most files of a scan that are explained, and the most lines of a pickle."""
_LARGEST = 1 << 26
_PICKLES = 100


def explained(reports: Iterable[Report]) -> Iterator[Report]:
    """The reports, those on dangerous pickles with their dangerous statements."""
    left, path = FILES, ""
    said: Dict[str, Tuple[str, ...]] = {}
    for report in reports:
        if any(it.severity == DANGER for it in report.findings):
            if report.file != path and left:
                left, path, said = left - 1, report.file, _said_of(report.file)
            if report.file == path:
                report = report._replace(explained=said.get(report.path, ()))
        yield report


def _said_of(path: str) -> Dict[str, Tuple[str, ...]]:
    """What the pickles in a file do, by their paths."""
    found: Dict[str, Tuple[str, ...]] = {}
    try:
        if not os.path.isfile(path) or os.path.getsize(path) > _LARGEST:
            return found
        with open(path, "rb") as file:
            for it in itertools.islice(followed_in(path, source_of(file), False), _PICKLES):
                lines = (text for line in part_of(it, False).worst for text in line.written())
                found.setdefault(it.path, tuple(itertools.islice(lines, LINES)))
    except (OSError, TooMuch):
        pass  # (the report says so)
    return found

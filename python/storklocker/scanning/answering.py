"""What `check` and `imports` say of files, in lines and by a status."""

from __future__ import annotations

from typing import Iterable, Iterator, Tuple

from .._answers import printed
from .report import Report, shown
from .severity import REFUSED
from .summary import Summary
from .words import Word

YES, NO, FAULT = 0, 1, 2


def status_of(told: Summary) -> int:
    """The status, after the last report."""
    if told.is_found:
        return NO
    return FAULT if told.is_unread else YES


class Checking:
    """What `check` says."""

    def __init__(self, is_guarded: bool = False) -> None:
        self._told, self._status = Summary(REFUSED, is_guarded), YES

    def lines(self, reports: Iterable[Report], path: str, is_named: bool = False) -> Iterator[str]:
        """The lines on the file of this path, which is named in them where `is_named`."""
        is_pickle = False
        for report, front in _fronted(self._told.heard(reports), path, is_named):
            yield _line(report, front)
            is_pickle |= report.status is not Word.NO_PICKLE
        self._status = self._status if is_pickle else NO

    @property
    def status(self) -> int:
        """The status, after the last line."""
        return status_of(self._told) or self._status


class Importing:
    """What `imports` says."""

    def __init__(self) -> None:
        self._told, self._is_broken = Summary(REFUSED), False

    def lines(self, reports: Iterable[Report], path: str, is_named: bool = False) -> Iterator[str]:
        """The lines on the file of this path, which is named in them where `is_named`."""
        for report, front in _fronted(self._told.heard(reports), path, is_named):
            for module, name in report.imports:
                if module is None or name is None:
                    yield "unknown"
                else:
                    yield f"{printed(module)} {printed(name)}"
            yield _line(report, front)
            self._is_broken |= any(found.kind == "broken-pickle" for found in report.findings)

    @property
    def status(self) -> int:
        """The status, after the last line."""
        return NO if self._is_broken else status_of(self._told)


def _line(report: Report, front: str) -> str:
    return front + (shown(report.why, 1000) or report.status)


def _fronted(
    reports: Iterator[Report], path: str, is_named: bool
) -> Iterator[Tuple[Report, str]]:
    """The reports, each with what stands in front of the program's line: the path, unless that is
    the only one, and the kind of another reading of the same bytes, if that has found anything.
    """
    before = ""
    for report in reports:
        is_again, before = report.path == before, report.path
        if is_again and report.status is Word.NO_PICKLE and not report.findings:
            continue
        is_named_here = is_named or report.path not in (path, "standard input")
        front = f"{shown(report.path)}: " if is_named_here else ""
        yield report, front + (f"{report.kind}: " if is_again else "")

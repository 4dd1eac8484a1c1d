"""Keeps the reports on one file within bounds, however many members and names it has."""

from __future__ import annotations

import re
from collections import Counter
from typing import Iterable, Iterator, Optional

from .report import Finding, Report, sorted_findings
from .words import Word

ROOM, QUIET = 500_000, 250_000
"""About the most bytes of the reports on a file, in any format: of those with findings, and of the
others.
"""
_REPORT, _FINDING, _LINE = 450, 600, 60
"""The bytes that each format puts around a report, a finding, and a name or a line."""
_MARKUP = re.compile(r"""["&'<>\\]""")
_OTHER = re.compile("[^ -~]")


def condensed(reports: Iterable[Report]) -> Iterator[Report]:
    """The reports on a file. What there is no room for is counted in a last one, also where the
    reports end in an exception.
    """
    rest = _Rest()
    try:
        for report in reports:
            if rest.has_room(report):
                yield report
    except Exception:
        yield from rest.counted()
        raise
    if rest.is_any:
        yield from rest.counted()


class _Rest:
    """What there is no room for."""

    def __init__(self) -> None:
        self._room, self._quiet = ROOM, QUIET
        self._first: Optional[Report] = None
        self.is_any = self._is_weighed = False

    def has_room(self, report: Report) -> bool:
        """Whether there is room for a report. Counts it otherwise."""
        if self._first is None:
            self._first = report
            if is_small(report):
                return True  # most files have no other
        elif not self._is_weighed:
            self._quiet -= _weight(self._first)
        self._is_weighed = True
        if report.is_finding:
            self._room -= _weight(report)
            room = self._room
        else:
            self._quiet -= _weight(report)
            room = self._quiet
        if room <= 0:
            self._count(report)
        return room > 0

    def _count(self, report: Report) -> None:
        if not self.is_any:
            self.is_any = True
            self._statuses: "Counter[Word]" = Counter()
            self._kinds: "Counter[str]" = Counter()
        self._file = report.file
        self._statuses[report.status] += 1
        self._kinds.update(finding.kind for finding in report.findings)

    def counted(self) -> Iterator[Report]:
        """A report on the others, if there are any."""
        if not self.is_any:
            return
        rest = {it: self._statuses[it] for it in Word if self._statuses[it]}
        counts = ", ".join(f"{count:,} {status}" for status, count in rest.items())
        found = [Finding(it, f"{count:,} more of these") for it, count in self._kinds.items()]
        yield Report(
            self._file,
            "the rest",
            next(iter(rest)),
            f"{sum(rest.values()):,} more than a report has room for: {counts}",
            findings=sorted_findings(found),
            file=self._file,
        )


def is_small(report: Report) -> bool:
    """Whether there is room for it, if no other is in front of it."""
    if report.is_finding or report.listing or len(report.imports) > 7:
        return False
    size = len(report.path) + len(report.file) + len(report.why)
    for module, name in report.imports:
        size += len(module or "") + len(name or "")
    return size < 4000


def _weight(report: Report) -> int:
    """About the most bytes that a format takes for the report."""
    names = [text or "" for pair in (*report.imports, *report.missing) for text in pair]
    texts = [report.path, report.path, report.file, report.kind, report.why, *names]
    for finding in report.findings:
        texts += (finding.name, finding.name, finding.why, finding.why, finding.example)
        texts += finding.calls
    texts += (line.line for line in report.listing)
    text = "".join(texts)
    # a character takes up to 12 bytes in JSON, 6 in HTML
    size = len(text) + 5 * len(_MARKUP.findall(text))
    if not (text.isascii() and text.isprintable()):
        size += 11 * len(_OTHER.findall(text))
    around = _LINE * (len(names) // 2 + len(report.listing))
    return size + around + _REPORT + _FINDING * len(report.findings)

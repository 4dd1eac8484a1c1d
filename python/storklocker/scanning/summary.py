"""What a whole scan found: the exit status, the progress line, and the last line on a terminal."""

from __future__ import annotations

import os
import sys
import time
from collections import Counter
from typing import FrozenSet, Iterable, Iterator, List, Optional, Set, TextIO, Tuple

from .report import Report
from .severity import (
    DANGER, NOTE, REFUSED, SEVERITIES, UNDECIDED, UNKNOWN, UNREADABLE, UNRECOGNIZED, WARNING
)
from .words import HEADLINES, Word, headline_of

NEVER = "never"
FAIL_ON = (REFUSED, DANGER, WARNING, UNKNOWN, NOTE, UNRECOGNIZED, NEVER)
"""The choices of `--fail-on`."""
_FOLDERS = 10_000
"""The most folders whose findings are counted."""
_WORDS = {
    REFUSED: Word.REFUSED, DANGER: Word.DANGEROUS, UNREADABLE: Word.UNREADABLE,
    UNDECIDED: Word.UNDECIDED, WARNING: "with warnings",
    UNKNOWN: "with names that nobody has judged", NOTE: "with notes",
}


def counted(fail_on: str, is_guarded: bool = False) -> FrozenSet[str]:
    """The severities that cause status 1. `is_guarded`: whether a guard is what loads the files."""
    if fail_on == NEVER:
        return frozenset()
    worst = NOTE if fail_on == UNRECOGNIZED else fail_on
    found = {*SEVERITIES[: SEVERITIES.index(worst) + 1], UNDECIDED, fail_on} - {UNREADABLE}
    return frozenset(found - {UNDECIDED} if is_guarded else found)


class Summary:
    """Collects what the status and the last line of a scan depend on.

    is_found: whether there is a finding that counts.
    is_unread: whether something couldn't be read to its end.
    """

    def __init__(self, fail_on: str, is_guarded: bool = False) -> None:
        self._counted = counted(fail_on, is_guarded)
        self.is_found = self.is_unread = False
        self._found: "Counter[str]" = Counter()
        self._folders: "Counter[str]" = Counter()
        self._severities: Set[str] = set()
        self._words: Set[Word] = set()
        self._file = ""
        self._is_noted = False
        self.files = self.known = 0

    def heard(self, reports: Iterable[Report]) -> Iterator[Report]:
        """Passes on the reports, and notes what they say."""
        for report in reports:
            self._hear(report)
            yield report

    def _hear(self, report: Report) -> None:
        if report.file != self._file:
            self._file, self._is_noted = report.file, False
            self.files += 1
        if not report.findings and report.status not in SEVERITIES:
            self._words.add(report.status)
            return
        severities = report.severities
        self.known += len(report.findings) - len(report.fresh)
        self._severities |= severities.intersection(SEVERITIES)
        self.is_unread |= UNREADABLE in severities
        self.is_found |= not self._counted.isdisjoint(severities)
        worst = next((it for it in SEVERITIES if it in severities), "")
        if not worst:
            return
        self._found[worst] += 1
        folder = os.path.dirname(report.file) or "."
        if not self._is_noted and (folder in self._folders or len(self._folders) < _FOLDERS):
            self._folders[folder] += 1
        self._is_noted = True

    def headline(self) -> Tuple[str, str]:
        """The verdict in a reader's words, and the severity or the word that it is about."""
        if self.known and not self._severities:
            return "Nothing new was found", ""
        headline = headline_of(self._severities, self._words)
        return HEADLINES[headline], headline

    def line(self, command: str) -> str:
        """What was found, where most of it is, and the command that shows more."""
        if not self._found:
            known = f", but {self.known:,} known findings" if self.known else ""
            return f"nothing was found in {_files(self.files)}{known}"
        kinds = [f"{self._found[it]:,} {_WORDS[it]}" for it in SEVERITIES if self._found[it]]
        folder, count = self._folders.most_common(1)[0]
        files = sum(self._folders.values())
        where = f"most in {folder} ({count:,})" if len(self._folders) > 1 else f"all in {folder}"
        kinds += [f"{self.known:,} known"] if self.known else []
        return (
            f"{', '.join(kinds)}: in {files:,} of {_files(self.files)}, {where};"
            f" for what to do about each: {command}"
        )


def _files(count: int) -> str:
    return "1 file" if count == 1 else f"{count:,} files"


class Progress:
    """A progress line on a terminal: files, bytes, files a second."""

    def __init__(self, out: Optional[TextIO]) -> None:
        self._out = out if out is not None and out.isatty() else None
        self._is_shared = sys.stdout.isatty()
        self._files = self._bytes = self._width = 0
        self._findings = 0
        self._began = self._told = time.monotonic()

    def add(self, reports: List[Report]) -> None:
        """Counts a file, and clears the progress line for its report."""
        if self._out is None:
            return
        self._files += 1
        self._bytes += sum(report.size for report in reports)
        self._findings += any(report.is_finding for report in reports)
        if self._is_shared and any(report.status is not Word.NO_PICKLE for report in reports):
            self._clear()
        elif time.monotonic() - self._told > 0.2:
            self._told = time.monotonic()
            self._write()

    def end(self) -> None:
        """Ends the line, or clears it for what the same terminal shows."""
        if self._is_shared:
            self._clear()
        elif self._out is not None:
            self._write()
            self._out.write("\n")

    def _clear(self) -> None:
        if self._out is not None and self._width:
            self._out.write("\r" + " " * self._width + "\r")
            self._out.flush()
            self._width = 0

    def _write(self) -> None:
        if self._out is not None:
            pace = self._files / max(time.monotonic() - self._began, 0.001)
            found = f", {self._findings:,} with findings" if self._findings else ""
            told = f"{self._files:,} files, {self._bytes:,} bytes, {pace:.0f} a second{found} "
            self._width = max(self._width, len(told))
            self._out.write("\r" + told.ljust(self._width))
            self._out.flush()

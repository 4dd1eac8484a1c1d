"""Reports as a JUnit file: a test for each file and member, as CI systems show them."""

from __future__ import annotations

import re
import tempfile
from typing import IO, Container, Dict, Iterable, Iterator, Optional
from xml.sax.saxutils import escape

from .report import Finding, Report, shown
from .severity import UNREADABLE

_HELD = 1 << 24
"""The most bytes of tests that are held in memory: their counts come before them."""
_TEXT = 1000
"""The most characters of a message."""
_FORBIDDEN = re.compile("[^\t\n -\ud7ff\ue000-\ufffd\U00010000-\U0010ffff]")
"""What XML can't contain."""


def as_junit(reports: Iterable[Report], counted: Container[str]) -> Iterator[str]:
    """The file, in pieces. Findings of a severity that counts are failures, what can't be read is
    an error, and other findings are output.
    """
    counts = {"tests": 0, "failure": 0, "error": 0}
    with tempfile.SpooledTemporaryFile(_HELD, "w+", encoding="utf-8") as held:
        for report in reports:
            _write(held, report, counted, counts)
        held.seek(0)
        yield '<?xml version="1.0" encoding="UTF-8"?>'
        numbers = (
            f'tests="{counts["tests"]}" failures="{counts["failure"]}" errors="{counts["error"]}"'
        )
        yield f'<testsuites {numbers}><testsuite name="storklocker scan" {numbers}>'
        for line in held:
            yield line.rstrip("\n")
    yield "</testsuite></testsuites>"


def _write(
    held: IO[str], report: Report, counted: Container[str], counts: Dict[str, int]
) -> None:
    counts["tests"] += 1
    name, file = _quoted(report.path), _quoted(report.file or report.path)
    held.write(f'<testcase classname="{file}" name="{name}">')
    word = _outcome(report, counted)
    if word is not None:
        counts[word] += 1
        worst = report.findings[0] if report.findings else Finding("unreadable", report.why)
        message = _quoted(f"{report.status}: {_line(worst)}")
        lines = "\n".join(f"{_line(it)} {it.advice}" for it in report.findings)
        held.write(f'<{word} type="{worst.kind}" message="{message}">{_safe(lines)}</{word}>')
    elif report.findings:
        lines = "\n".join(f"{it.severity}: {_line(it)}" for it in report.findings)
        held.write(f"<system-out>{_safe(f'{report.status}: {lines}')}</system-out>")
    held.write("</testcase>\n")


def _outcome(report: Report, counted: Container[str]) -> Optional[str]:
    if any(severity in counted for severity in report.severities):
        return "failure"
    return "error" if UNREADABLE in report.severities else None


def _line(finding: Finding) -> str:
    return shown(finding.line, _TEXT)


def _safe(text: str) -> str:
    return escape(_FORBIDDEN.sub("?", text))


def _quoted(text: str) -> str:
    return escape(_FORBIDDEN.sub("?", shown(text, _TEXT)), {'"': "&quot;"})

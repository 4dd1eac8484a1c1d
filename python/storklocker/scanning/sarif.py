"""Reports as a SARIF 2.1.0 log, with a result for each finding, as Code scanning takes it."""

from __future__ import annotations

import hashlib
import json
import os
import re
from typing import Any, Dict, Iterable, Iterator, List
from urllib.parse import quote

from .file import is_url
from .report import Finding, Report, dotted, shown
from .severity import (
    DANGER, KINDS, NOTE, REFUSED, SEVERITIES, UNDECIDED, UNKNOWN, UNREADABLE, WARNING
)

MOST = 25_000
"""The most results of a log: Code scanning takes no log with more. The worst stay."""
_SCHEMA = "https://json.schemastore.org/sarif-2.1.0.json"
_LEVELS = {
    REFUSED: "error", DANGER: "error", UNREADABLE: "warning", UNDECIDED: "warning",
    WARNING: "warning", UNKNOWN: "warning", NOTE: "note",
}
_SCORES = {
    REFUSED: "8.0", DANGER: "9.8", UNREADABLE: "6.0", UNDECIDED: "5.0", WARNING: "5.0",
    UNKNOWN: "5.0", NOTE: "2.0",
}
"""By which Code scanning sorts: from 9 on it is critical, from 7 high, from 4 medium."""
_PLAIN = ("pickle", "stream of pickles")
"""The kinds of files whose offsets are those of their pickles."""
_TEXT = 1000
"""The most characters of a message."""
_ROOT = "%SRCROOT%"
_PLACE = {"startLine": 1, "startColumn": 1, "endLine": 1, "endColumn": 1}
"""Where a result is shown. Code scanning knows lines alone, and a pickle has none."""
_RULES = tuple(KINDS)


def as_sarif(reports: Iterable[Report], version: str) -> Iterator[str]:
    """The log, in pieces, the worst results first."""
    rules = [_rule(name) for name in _RULES]
    driver = {"name": "storklocker", "version": version, "rules": rules}
    front = {"version": "2.1.0", "$schema": _SCHEMA}
    kept = _Kept()
    for report in reports:
        for finding in report.findings:
            kept.add(report, finding)
    yield json.dumps(front)[:-1] + ', "runs": [{"columnKind": "unicodeCodePoints",'
    yield f'"tool": {json.dumps({"driver": driver})}, "results": ['
    comma = ""
    for result in kept.results():
        yield comma + result
        comma = ","
    yield f'], "invocations": [{json.dumps(_invocation(kept.left_out))}]}}]}}'


class _Kept:
    """The worst results, as JSON."""

    def __init__(self) -> None:
        self._held: Dict[str, List[str]] = {severity: [] for severity in SEVERITIES}
        self._count = self.left_out = 0

    def add(self, report: Report, finding: Finding) -> None:
        """Adds a result; if there are too many, in place of the last of the mildest."""
        if self._count < MOST:
            self._count += 1
        else:
            self.left_out += 1
            mildest = next(it for it in reversed(SEVERITIES) if self._held[it])
            if SEVERITIES.index(mildest) <= SEVERITIES.index(finding.severity):
                return
            self._held[mildest].pop()
        self._held[finding.severity].append(json.dumps(_result(report, finding)))

    def results(self) -> Iterator[str]:
        """The results, the worst first."""
        for severity in SEVERITIES:
            yield from self._held[severity]


def _invocation(left_out: int) -> Dict[str, Any]:
    """What is said of the scan."""
    text = f"{left_out:,} more results are left out: --format json has them"
    told = [{"level": "warning", "message": {"text": text}}] if left_out else []
    return {"executionSuccessful": True, "toolExecutionNotifications": told}


def _rule(name: str) -> Dict[str, Any]:
    kind = KINDS[name]
    return {
        "id": name,
        "shortDescription": {"text": kind.title},
        "fullDescription": {"text": f"{kind.title}."},
        "help": {"text": kind.advice, "markdown": kind.advice},
        "defaultConfiguration": {"level": _LEVELS[kind.severity]},
        "properties": {"tags": ["security"], "security-severity": _SCORES[kind.severity]},
    }


def _result(report: Report, finding: Finding) -> Dict[str, Any]:
    text = finding.line
    if finding.kind == "refused" and report.missing:
        text += f"; off the list: {', '.join(dotted(pair) for pair in report.missing)}"
    if finding.severity == DANGER and report.explained:
        text += f" It does: {'; '.join(it.strip('# ') for it in report.explained)}"
    place: Dict[str, Any] = {
        "physicalLocation": {"artifactLocation": _artifact(report.file), "region": _PLACE}
    }
    properties: Dict[str, Any] = {"verdict": report.status.value}
    if report.path != report.file:
        member = shown(report.path[len(report.file) + 1 :], _TEXT)
        place["logicalLocations"] = [{"fullyQualifiedName": member, "kind": "member"}]
    elif report.kind in _PLAIN:  # others are unpacked, so have no such offset
        properties["byteOffset"] = report.at
    return {
        "ruleId": finding.kind,
        "ruleIndex": _RULES.index(finding.kind),
        "level": _LEVELS[finding.severity],
        # brackets would become links
        "message": {"text": re.sub(r"([\\\[\]])", r"\\\1", shown(text, _TEXT))},
        "locations": [place],
        "partialFingerprints": {"primaryLocationLineHash": _fingerprint(report, finding)},
        "properties": properties,
    }


def _fingerprint(report: Report, finding: Finding) -> str:
    """What is the same for a finding in every scan, so that it is shown once."""
    path = os.path.normpath(report.path)
    text = "\0".join((path, finding.kind, finding.name))
    return hashlib.sha256(text.encode("utf-8", "surrogatepass")).hexdigest()[:32]


def _artifact(path: str) -> Dict[str, str]:
    """Where a file is: below the current folder, which is a repository's, by a relative path."""
    if is_url(path):
        return {"uri": quote(path, safe="/:", errors="surrogateescape")}
    way = os.path.relpath(path)
    is_below = way.split(os.sep)[0] != os.pardir
    way = way if is_below else os.path.abspath(path)
    uri = quote(way.replace(os.sep, "/"), safe="/", errors="surrogateescape")
    return {"uri": uri, "uriBaseId": _ROOT} if is_below else {"uri": f"file://{uri}"}

"""Findings of an earlier scan, which don't count again."""

from __future__ import annotations

import json
import os
from typing import Any, Dict, Iterable, Iterator, Set, Tuple

from .report import Finding, Report

_Key = Tuple[str, str, str, str]


class Baseline:
    """The findings of a report as JSON. One is known by the path of its file and member, its kind,
    its name, and the SHA-256 of the bytes: where these changed, or have none, it counts again.
    """

    def __init__(self, path: str) -> None:
        try:
            with open(path, encoding="utf-8") as opened:
                self._known = {key for report in _reports(opened.read()) for key in _keys(report)}
        except (ValueError, TypeError, KeyError, AttributeError, RecursionError):
            raise OSError(f"{path} isn't a report of `scan --format json`") from None

    def marked(self, reports: Iterable[Report]) -> Iterator[Report]:
        """The reports, in which the known findings are marked."""
        for report in reports:
            if report.findings and report.sha256:
                found = tuple(self._marked(report, it) for it in report.findings)
                report = report._replace(findings=found)
            yield report

    def _marked(self, report: Report, finding: Finding) -> Finding:
        key = _key(report.path, finding.kind, finding.name, report.sha256)
        return finding._replace(is_known=True) if key in self._known else finding


def _reports(text: str) -> Iterator[Dict[str, Any]]:
    """The reports of `--format json`, or of `ndjson`."""
    if text.lstrip()[:1] == "[":
        yield from json.loads(text)
    else:
        yield from map(json.loads, filter(str.strip, text.splitlines()))


def _keys(report: Dict[str, Any]) -> Set[_Key]:
    path, sha256 = report["path"], report["sha256"]
    its = {_key(path, it["kind"], it["name"], sha256) for it in report["findings"]}
    return its if sha256 else set()


def _key(path: str, kind: str, name: str, sha256: str) -> _Key:
    return (os.path.normpath(path), kind, name, sha256)

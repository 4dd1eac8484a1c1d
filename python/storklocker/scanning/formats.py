"""Reports as a table, and as JSON."""

from __future__ import annotations

import functools
from collections import Counter
from typing import Iterable, Iterator, List

from .colour import Paint, plain
from .report import Finding, Pair, Report, dotted, shown
from .severity import DANGER, KINDS
from .words import Word

_INDENT = " " * 12
QUIET = 20
"""The most members without a pickle that the table names, where it names them at all."""


def table(reports: Iterable[Report], quiet: int = 0, paint: Paint = plain) -> Iterator[str]:
    """The rows, then a line of totals."""
    found: "Counter[Word]" = Counter()
    yield from rows(_counted(reports, found), quiet, paint)
    yield ", ".join(f"{count} {status}" for status, count in sorted(found.items())) or "no files"


def _counted(reports: Iterable[Report], found: "Counter[Word]") -> Iterator[Report]:
    for report in reports:
        found[report.status] += 1
        yield report


def rows(reports: Iterable[Report], quiet: int = 0, paint: Paint = plain) -> Iterator[str]:
    """Texts of lines for each file or member that is a pickle or a finding.

    quiet: how many without a pickle get a line too, which says what they are.
    """
    count, is_unknown = 0, False
    for report in reports:
        is_unknown |= report.status is Word.UNKNOWN
        is_quiet = report.status is Word.NO_PICKLE and not report.findings
        count += is_quiet
        if not is_quiet or count <= quiet:
            yield "\n".join(_lines(report, paint))
    if 0 < quiet < count:
        yield f"{_INDENT}{count - quiet} more without a pickle"
    if is_unknown:
        yield f"what to do about unknown names: {KINDS['unknown-import'].advice}"


def _lines(report: Report, paint: Paint) -> List[str]:
    word = paint(f"{report.status:10}", report.status.value)
    lines = [f"{word}  {shown(report.path)}  {report.kind}  {shown(report.why)}".rstrip()]
    missing = set(report.missing)
    for pair in report.imports:
        lines.append(f"{_INDENT}{'off the list' if pair in missing else 'imports'}: {_named(pair)}")
    for finding in report.findings:
        if finding.why != report.why:
            lines.append(f"{_INDENT}{told(finding, paint)}")
            lines += (f"{_INDENT}called: {call}" for call in finding.calls)
    return lines


def told(finding: Finding, paint: Paint = plain) -> str:
    """A finding in a line."""
    word = Word.DANGEROUS.value if finding.severity == DANGER else finding.severity
    name = f"{shown(finding.name, 256)}: " if finding.name else ""
    return f"{paint(word, finding.severity)}: {name}{shown(finding.why)}"


# (the files of a scan mostly import the same names)
@functools.lru_cache(maxsize=1024)
def _named(pair: Pair) -> str:
    return shown(dotted(pair), 256)


def as_json(reports: Iterable[Report]) -> Iterator[str]:
    """An array of objects, one for each report."""
    import json  # a table has no need of it

    front = "["
    for report in reports:
        yield front + json.dumps(report.as_dict())
        front = ","
    yield "[]" if front == "[" else "]"


def as_ndjson(reports: Iterable[Report]) -> Iterator[str]:
    """The objects of `as_json`, a line each."""
    import json

    for report in reports:
        yield json.dumps(report.as_dict())

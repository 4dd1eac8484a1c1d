"""Reports as one self-contained HTML page."""

from __future__ import annotations

import re
from collections import Counter
from html import escape
from typing import Dict, Iterable, Iterator, List, Set, Tuple

from .page import SCRIPT, STYLE
from .report import Finding, Report, dotted, shown
from .severity import KINDS, SEVERITIES
from .words import HEADLINES, Word, headline_of

FOUND, OTHERS = 5000, 2000
"""The most rows of files and members with findings, and of others."""
_SHOWN = 8
"""The most findings of a kind, and imports, of a row that are shown before it is opened."""
_WORDS = tuple(Word)


def page(reports: Iterable[Report], version: str) -> Iterator[str]:
    """The page, in pieces."""
    found = _Found()
    for report in reports:
        found.add(report)
    headline = headline_of(found.severities, found.counts)
    yield "<!DOCTYPE html><html lang=en><meta charset=utf-8><title>Storklocker</title>"
    yield "<meta name=viewport content='width=device-width,initial-scale=1'>"
    yield "<meta http-equiv=Content-Security-Policy"
    yield " content=\"default-src 'none'; style-src 'unsafe-inline'; script-src 'unsafe-inline'\">"
    yield f"<style>{STYLE}</style><main><header class='{headline}'>"
    yield f"<h1>{_marked(HEADLINES[headline])}</h1>"
    yield f"<p>{found.line()} Storklocker {escape(version)}.</p></header>"
    yield from _advice(found.kinds)
    yield from _buttons(found)
    yield "<table><thead><tr><th>Found<th>File<th>Type<th class=number>Bytes<th>What</thead><tbody>"
    for report in sorted(found.rows, key=_rank):
        yield _row(report)
    yield "</tbody></table>"
    if found.left_out:
        yield f"<p>{found.left_out:,} more are left out: --format json has them.</p>"
    yield f"</main><script>{SCRIPT}</script></html>"


class _Found:
    """The rows of the page, and how many there are of each word and kind."""

    def __init__(self) -> None:
        self.rows: List[Report] = []
        self.counts: "Counter[Word]" = Counter()
        self.severities: Set[str] = set()
        self.kinds: "Counter[str]" = Counter()
        self.files = self.left_out = 0
        self._file, self._room = "", {True: FOUND, False: OTHERS}

    def add(self, report: Report) -> None:
        """Counts a report, and keeps it if there is room."""
        self.counts[report.status] += 1
        self.severities.update(finding.severity for finding in report.findings)
        self.kinds.update({finding.kind for finding in report.findings})
        self.files += report.file != self._file
        self._file = report.file
        self._room[report.is_finding] -= 1
        if self._room[report.is_finding] < 0:
            self.left_out += 1
        else:
            self.rows.append(report)

    def line(self) -> str:
        """What was looked at."""
        return f"{self.files:,} files, {sum(self.counts.values()):,} pickles and members."


def _rank(report: Report) -> Tuple[int, int]:
    worst = report.worst
    rank = SEVERITIES.index(worst) if worst else len(SEVERITIES)
    return _WORDS.index(report.status), rank


def _advice(kinds: "Counter[str]") -> Iterator[str]:
    """What to do about each kind of finding, the worst first."""
    if kinds:
        yield "<h2>What to do</h2><ul class=advice>"
    for name, kind in sorted(KINDS.items(), key=lambda it: SEVERITIES.index(it[1].severity)):
        if kinds[name]:
            yield (
                f"<li><b class={kind.severity}>{kinds[name]:,} \u00d7 {_text(kind.title)}.</b>"
                f" {_marked(kind.advice)}"
            )
    if kinds:
        yield "</ul>"


def _buttons(found: _Found) -> Iterator[str]:
    yield "<div class=filter role=group aria-label='Which to show'>"
    yield f"<button data-worst='' aria-pressed=true>all {sum(found.counts.values()):,}</button>"
    for word in filter(found.counts.get, Word):
        text = f"{word} {found.counts[word]:,}"
        yield f"<button data-worst='{word}' aria-pressed=false>{text}</button>"
    yield "<input id=word type=search placeholder='Search names and files' aria-label=Search>"
    yield "<span id=count role=status></span></div>"


def _row(report: Report) -> str:
    colour = report.worst or report.status.replace(" ", "-")
    return (
        f"<tr data-worst='{report.status}'><td class='verdict {colour}'>{report.status}"
        f"<td class=path>{_text(report.path)}<td class=kind>{_text(report.kind)}"
        f"<td class=number data-value={report.size}>{report.size:,}<td>{_what(report)}"
    )


def _what(report: Report) -> str:
    parts = [f"<p>{_text(report.why)}</p>"] if report.why else []
    kinds: Dict[str, List[Finding]] = {}
    for finding in report.findings:
        kinds.setdefault(finding.kind, []).append(finding)
    for kind, findings in kinds.items():
        parts.append(_told(kind, findings, report.why))
    missing = set(report.missing)
    names = [
        f"<code class={'refused' if pair in missing else 'name'}>{_text(dotted(pair))}</code>"
        for pair in report.imports
    ]
    if names and report.status is not Word.NO_PICKLE:
        is_open = " open" if len(names) <= _SHOWN else ""
        parts.append(f"<details{is_open}><summary>{_counted(len(names))}</summary>")
        parts.append(f"{', '.join(names)}</details>")
    if report.explained:
        parts.append("<details open><summary>What it does</summary><pre tabindex=0>")
        parts.append("\n".join(map(_text, report.explained)) + "</pre></details>")
    if report.listing:
        lines = [
            f"<span class={'here' if line.at == report.at else 'line'}>{_text(line.line)}</span>"
            for line in report.listing
        ]
        parts.append("<details><summary>Instructions</summary><pre tabindex=0>")
        parts.append("\n".join(lines) + "</pre></details>")
    return "".join(parts)


def _told(name: str, findings: List[Finding], why: str) -> str:
    """The findings of a kind, and what to do about them."""
    kind = KINDS[name]
    lines = []
    for finding in findings:
        said = "" if finding.why == why else _text(finding.why)
        code = f"<code>{_text(finding.name)}</code> " if finding.name else ""
        example = f" Example: <code>{_text(finding.example)}</code>" if finding.example else ""
        if code or said:
            calls = "".join(f"<br>Called: <code>{_text(it)}</code>" for it in finding.calls)
            lines.append(f"<li>{code}{said}{example}{calls}")
    listed = f"<ul>{''.join(lines[:_SHOWN])}</ul>" if lines else ""
    if len(lines) > _SHOWN:
        listed += f"<details><summary>{len(lines) - _SHOWN} more lines</summary>"
        listed += f"<ul>{''.join(lines[_SHOWN:])}</ul></details>"
    title = f"<b class={kind.severity}>{_text(kind.title)}.</b>"
    return f"<div class=finding>{title}{listed}<p class=do>{_marked(kind.advice)}</p></div>"


def _counted(count: int) -> str:
    return "1 name" if count == 1 else f"{count:,} names"


def _marked(text: str) -> str:
    """A text of ours, with code between backticks."""
    return re.sub("`([^`]*)`", r"<code>\1</code>", _text(text))


def _text(text: str) -> str:
    return escape(shown(text, 400), quote=True)

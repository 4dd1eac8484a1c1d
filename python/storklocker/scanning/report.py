"""The report on a file, or on a member of one."""

from __future__ import annotations

from typing import Any, Dict, Iterable, List, NamedTuple, Optional, Set, Tuple

from .severity import KINDS, SEVERITIES, UNREADABLE
from .words import Word, word_of, worst_of

Pair = Tuple[Optional[str], Optional[str]]

VERSION = 1
"""The version of the reports as JSON, which `docs/report.schema.json` describes."""

LONGEST = 256
"""The most characters of a name that a report has."""


class Finding(NamedTuple):
    """Something that somebody should look into."""

    kind: str
    """One of `KINDS`, which says how bad it is and what to do."""
    why: str
    """What was found, in one sentence."""
    name: str = ""
    """The dotted name, of an import."""
    example: str = ""
    """How an attacker uses this name."""
    calls: Tuple[str, ...] = ()
    """How the pickle calls this name, with the arguments as far as they are plain."""
    is_known: bool = False
    """Whether an earlier scan has told of it, so that it doesn't count."""

    @property
    def severity(self) -> str:
        """How bad it is: one of `SEVERITIES`."""
        return KINDS[self.kind].severity

    @property
    def advice(self) -> str:
        """What to do about it."""
        return KINDS[self.kind].advice

    @property
    def line(self) -> str:
        """What was found, with the name and how it is called."""
        line = f"{self.name}: {self.why}" if self.name else self.why
        return f"{line} It is called as {', '.join(self.calls)}." if self.calls else line

    def as_dict(self) -> Dict[str, Any]:
        """The finding for JSON."""
        return {"severity": self.severity, **self._asdict(), "calls": list(self.calls)}


class Listed(NamedTuple):
    """A line of a listing."""

    at: int
    line: str


class Report(NamedTuple):
    """The report on a file, or on a member of one."""

    path: str
    """The path of the file, and after each `!` the member."""
    kind: str
    """The type, from the content, such as `pickle`."""
    status: Word
    """What is known of it, in a word that all formats have."""
    why: str = ""
    """The line of the verdict, or what went wrong."""
    size: int = 0
    """The number of bytes that were read."""
    sha256: str = ""
    """The SHA-256 of these bytes, if it is a pickle and the report is for JSON."""
    pickles: int = 0
    """The number of pickles in it, one after another."""
    imports: Tuple[Pair, ...] = ()
    """What they would import, each pair once; (None, None) is a name that isn't revealed."""
    missing: Tuple[Pair, ...] = ()
    """The imports off the list."""
    findings: Tuple[Finding, ...] = ()
    """What somebody should look into, the worst first."""
    listing: Tuple[Listed, ...] = ()
    """The instructions around a refusal."""
    at: int = 0
    """The offset of a refusal in the file or member."""
    file: str = ""
    """The path of the file, without the member."""
    verdict: Optional[Word] = None
    """The worst word of all reports on the file, if there are several."""
    explained: Tuple[str, ...] = ()
    """What its dangerous statements do, in a report for people."""

    @property
    def is_finding(self) -> bool:
        """Whether somebody should look into it."""
        return self.status in (Word.REFUSED, Word.UNREADABLE) or bool(self.findings)

    @property
    def fresh(self) -> Tuple[Finding, ...]:
        """Its findings that an earlier scan hasn't told of."""
        return tuple(it for it in self.findings if not it.is_known)

    @property
    def severities(self) -> Set[str]:
        """What may count of it: the severities of findings that aren't known, and its word, which
        may be due to those that are.
        """
        found = {finding.severity for finding in self.fresh}
        return {self.status.value, *found} if len(self.fresh) == len(self.findings) else found

    @property
    def worst(self) -> str:
        """The worst severity of its findings; empty if it has none."""
        return worst_of(finding.severity for finding in self.findings)

    @property
    def is_whole(self) -> bool:
        """Whether it is a pickle that was read to its end."""
        is_read = all(finding.severity != UNREADABLE for finding in self.findings)
        return is_read and self.status not in (Word.NO_PICKLE, Word.REFUSED, Word.UNREADABLE)

    def as_dict(self) -> Dict[str, Any]:
        """The report for JSON."""
        made: Dict[str, Any] = {"version": VERSION, **self._asdict(), "status": self.status.value}
        del made["explained"]
        made["verdict"] = (self.verdict or self.status).value
        made["imports"] = [list(pair) for pair in self.imports]
        made["missing"] = [list(pair) for pair in self.missing]
        made["findings"] = [finding.as_dict() for finding in self.findings]
        made["listing"] = [line._asdict() for line in self.listing]
        return made


def report_of(made: Dict[str, Any]) -> Report:
    """The report that `as_dict` has made this of."""
    fields: Dict[str, Any] = {name: made[name] for name in Report._fields if name != "explained"}
    fields.update({name: Word(made[name]) for name in ("status", "verdict")})
    for name in ("imports", "missing"):
        fields[name] = tuple((pair[0], pair[1]) for pair in made[name])
    fields["findings"] = tuple(
        Finding(*(it[name] for name in Finding._fields))._replace(calls=tuple(it["calls"]))
        for it in made["findings"]
    )
    fields["listing"] = tuple(Listed(**it) for it in made["listing"])
    return Report(**fields)


def unreadable(path: str, kind: str, finding: Finding, file: str) -> Report:
    """The report on a file, or on a member of one, of which nothing more is known."""
    return Report(path, kind, Word.UNREADABLE, finding.why, findings=(finding,), file=file)


def of_one_file(reports: List[Report]) -> List[Report]:
    """All reports on a file, each with the verdict on it."""
    if len(reports) < 2:
        return reports
    order = list(Word)
    worst = min((it.status for it in reports), key=order.index)
    return [it._replace(verdict=worst) for it in reports]


def judged(report: Report, findings: Iterable[Finding]) -> Report:
    """The report with these findings, and the word that all of it asks for."""
    found = sorted_findings(findings)
    word = word_of(report.status, (finding.severity for finding in found))
    return report._replace(status=word, findings=found)


def sorted_findings(findings: Iterable[Finding]) -> Tuple[Finding, ...]:
    """The findings, the worst first."""
    found = tuple(findings)
    if len(found) < 2:
        return found
    return tuple(sorted(found, key=lambda finding: SEVERITIES.index(finding.severity)))


def dotted(pair: Pair) -> str:
    """A pair as one dotted name."""
    return "an unknown name" if pair[0] is None else f"{pair[0]}.{pair[1]}"


def shown(text: str, most: int = 200) -> str:
    """A text that is safe for a terminal: nothing in it moves the cursor or reverses the line."""
    kept = text if len(text) <= most else f"{text[:most]}... and {len(text) - most} more"
    if kept.isprintable():
        return kept
    return "".join(it if it.isprintable() else _escaped(it) for it in kept)


def _escaped(character: str) -> str:
    number = ord(character)
    return f"\\x{number:02x}" if number < 256 else f"\\u{number:04x}"

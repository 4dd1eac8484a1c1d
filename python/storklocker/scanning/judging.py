"""Makes the reports on a file: whether it is a pickle, what it would import, and the verdict."""

from __future__ import annotations

import io
import re
from typing import TYPE_CHECKING, BinaryIO, Iterator, List, NamedTuple, Optional, Tuple

from .._answers import RowVerdict, Verdict
from .._hints import hint_of
from .._lists import AllowList, within
from .all_readings import asked
from .budget import STEP, Budget, TooMuch
from .called import called_findings
from .costs import COUNTED, bill_of, cost_finding
from .dangers import import_findings, judge_by
from .digests import sha256_of, with_sha256
from .joblib_files import WRAPPER_NAMES, without_arrays
from .listing import listing
from .lone import Lone
from .kept import NOTHING as KEEPS_NOTHING
from .kept import told_of_kept
from .names import pair_of
from .readings import (
    Answer, Beside, Found, Nothing, Piece, Place, Reading, Together, Unread, examine, nothing
)
from .recognized import is_text
from .report import Finding, Report, judged, unreadable
from .rows import Row, row_of
from .severity import DANGER, MILD, UNRECOGNIZED
from .shown_names import forget_names, told_names
from .source import Source, in_memory, source_of
from .stores import examined_value
from .words import Word

if TYPE_CHECKING:
    from .members import Members

_VALUE = 15 * STEP
"""The steps of what is told of a value by itself: most are told together."""
_IMPORTS = re.compile(rb"([ci][^\n]*\n[^\n]*\n)*")
_CUT_NAMES = Finding("too-much", "its imports take more bytes than are read of one file")


class Question(NamedTuple):
    """What a scan has to find out."""

    allow: Optional[AllowList] = None
    """The list to judge by, if any."""
    with_sha256: bool = False
    """Whether the reports need the SHA-256, which takes half as long as a check."""
    as_program: bool = False
    """Whether the answers are those of the program: a file that isn't a container is judged as
    pickles, also if no reader would get to one.
    """
    dangers: str = ""
    """The table of a team's own dangers."""
    with_unrecognized: bool = False
    """Whether a file that no reading knows is a finding."""
    members: Optional["Members"] = None
    """What takes what pickles ask `getattr` for, if that is asked."""


def prepare() -> None:
    """Does what is done with the first file."""
    import_findings([("nowhere", "unknown")])  # which is looked for in all tables


def reports_of(
    path: str,
    file: BinaryIO,
    question: Question,
    beside: Beside = nothing,
    may_be_lone: bool = True,
) -> Iterator[Report]:
    """The reports on a file: one for each piece that is a pickle, and one for each finding. It may
    not be lone if `lone_report` has been asked.
    """
    _judge_by(question.dangers)
    try:
        source = source_of(file)
    except TooMuch as error:
        yield _too_much(error, path)
        return
    place = Place(path, source, Budget(source.size), asked, beside=beside)
    found = _reports_on(place, question, may_be_lone)
    yield from with_sha256(found, source) if question.with_sha256 else found


def reports_of_value(path: str, value: bytes, question: Question) -> Iterator[Report]:
    """The reports on a value of a store, or a message of a queue: what it is as a file, or else the
    pickles that are in it as in a store.
    """
    _judge_by(question.dangers)
    source = in_memory(io.BytesIO(value))
    place = Place(path, source, Budget(source.size), asked, around="value")
    found = _reports_on(place, question, True, examined_value)
    yield from with_sha256(found, source) if question.with_sha256 else found


def _reports_on(
    place: Place, question: Question, may_be_lone: bool, told: Reading = examine
) -> Iterator[Report]:
    path, source = place.path, place.source
    try:
        may_be_lone &= len(source.front()) == source.size
        lone = lone_report(path, source.front(), question) if may_be_lone else None
        if lone is not None:
            yield lone
            return
        place.budget.lone = _lone_under(question.allow)
        yield from _reports_at(place, question, told(place))
    except TooMuch as error:
        yield _too_much(error, path)


def _too_much(error: TooMuch, path: str) -> Report:
    return unreadable(path, "file", Finding("too-much", str(error)), path)


def _judge_by(dangers: str) -> None:
    """Forgets what was judged by another table of dangers."""
    global _lone
    if judge_by(dangers):
        forget_names()
        _lone = Lone(_lone.allow, asked)


_lone = Lone(None, asked)
"""Tells of lone pickles under the list of the last file."""


def lone_report(path: str, data: bytes, question: Question) -> Optional[Report]:
    """The report on a file that is these bytes, one small pickle, as most are; None if it isn't
    known to be.
    """
    _judge_by(question.dangers)
    told = _lone_under(question.allow).told(path, data)
    if told is None:
        return None
    size, imports = len(data), told.imports
    status, why = _accepted(Verdict(True, size, told.made), question)
    source = in_memory(io.BytesIO(data))
    sha256 = sha256_of(source) if question.with_sha256 else ""
    report = Report(path, "pickle", status, why, size, sha256, 1, imports, file=path)
    findings = list(told.findings)
    if imports and question.allow is not None:
        report = _foreseen(report, [(source, 1)], Budget(size), question.allow, findings)
    elif imports:
        findings += called_findings([(source, 1)])
    findings = _with_calls(findings, source, size, Budget(size), question)
    return judged(report, findings) if findings else report


def _with_calls(
    findings: List[Finding], source: Source, end: int, budget: Budget, question: Question
) -> List[Finding]:
    """The findings on pickles up to a place, with the calls of dangerous names."""
    if all(it.severity != DANGER for it in findings):
        return findings
    from .calls import with_calls  # most scans have no need of these
    from .enums import without_members  # (the same)

    findings = without_members(findings, source, end, budget)
    if question.members is not None:
        question.members.look(source, 0, end)
    return with_calls(findings, source, end, budget)


def _lone_under(allow: Optional[AllowList]) -> Lone:
    global _lone
    if _lone.allow is not allow:
        _lone = Lone(allow, asked)
    return _lone


def _accepted(yes: Verdict, question: Question) -> Tuple[Word, str]:
    """The word and the line of accepted pickles."""
    is_answer = question.as_program or question.allow is not None
    line = yes.line() if is_answer else yes.line().replace("yes: ", "", 1)
    return Word.UNJUDGED if question.allow is None else Word.ACCEPTED, line


def _foreseen(
    report: Report,
    held: List[Tuple[Source, int]],
    budget: Budget,
    allow: AllowList,
    findings: List[Finding],
) -> Report:
    """The report on accepted pickles, of which each source has so many, under a list."""
    from .foreseeing import Fate, foreseen  # most scans have no need of it

    words = {Fate.REFUSED: Word.REFUSED, Fate.UNDECIDED: Word.UNDECIDED}
    for source, most in held:
        fate, why = foreseen(source, most, _lone_under(allow).foresight(), budget)
        if fate is not Fate.LOADED:
            front = "no" if fate is Fate.REFUSED else words[fate].value
            findings.append(Finding(words[fate].value, why))
            report = report._replace(status=words[fate], why=f"{front}: {why}")
        if fate is Fate.REFUSED:
            break
    return report


def _reports_at(place: Place, question: Question, told: Found) -> Iterator[Report]:
    answer: Answer = None
    budget = place.budget
    while True:
        try:
            it = told.send(answer)
        except StopIteration:
            return
        answer = None
        budget.spend(4 * STEP)
        if question.as_program and isinstance(it, Nothing) and _is_plain(it, place):
            it = place.piece("pickle", is_claimed=True)
        if isinstance(it, Together):
            yield _told_together(it, question, place)
        elif isinstance(it, Nothing):
            yield _nothing(it, place.path, question)
        elif isinstance(it, Unread):
            yield unreadable(it.path, it.kind, it.finding, place.path)
        else:
            budget.spend(_VALUE if it.most else 0)
            row = row_of(it, question.allow, budget, question.as_program)
            if row is None:
                continue
            if WRAPPER_NAMES.intersection(row.names):
                it, row = without_arrays(it, row, question.allow, budget)
            if it.is_remnant and row.refusal is not None and not _counts(row, question.allow):
                continue
            answer = row.taken
            yield _judged(it, row, question, place)
            if row.too_much is not None:
                raise row.too_much
        budget.reports += 1


def _is_plain(it: Nothing, place: Place) -> bool:
    """Whether this is a file that no reader takes, and the only thing that is told of it."""
    is_taken = it.finding is not None or it.kind not in ("file", UNRECOGNIZED)
    return it.path == place.path and not (is_taken or place.budget.reports)


def _nothing(it: Nothing, file: str, question: Question) -> Report:
    """The report on bytes without a pickle, or with what isn't read here."""
    report = Report(it.path, it.kind, Word.NO_PICKLE, it.why, it.size, file=file)
    if it.kind == UNRECOGNIZED and question.with_unrecognized:
        return judged(report, [Finding("unrecognized", "no reader recognizes it")])
    if it.finding is None:
        return report
    return judged(report._replace(status=Word.CODE), [it.finding])


def _told_together(it: Together, question: Question, place: Place) -> Report:
    """The report on values of which only the imports are to be told."""
    pairs = dict.fromkeys(pair for told in it.told for pair in told.imports)
    findings = dict.fromkeys(found for told in it.told for found in told.findings)
    status, why = _accepted(Verdict(True, it.size, it.imports), question)
    report = Report(
        it.path,
        it.kind,
        status,
        f"{it.number:,} more values like these: {why}",
        it.size,
        pickles=it.number,
        imports=tuple(filter(place.budget.spend_name, pairs)),
        file=place.path,
    )
    return judged(report, findings)


def _counts(row: Row, allow: Optional[AllowList]) -> bool:
    """Whether an import of a broken pickle is off the list; without one, known to do harm."""
    if allow is not None:
        return not (row.is_complete and all(map(allow.permits, row.names)))
    found = import_findings(map(pair_of, row.names))
    return not row.is_complete or any(finding.severity not in MILD for finding in found)


def _judged(piece: Piece, row: Row, question: Question, place: Place) -> Report:
    is_text = _has_text(piece, row)
    imports, missing, findings = told_names(row, question.allow, place.budget, is_text)
    allow, no = question.allow, row.guarded() if row.refusal is None else row.refusal
    kind = RowVerdict if row.pickles > 1 else Verdict
    yes = kind(True, row.taken, row.imports, pickles=row.pickles)
    status, why = _accepted(yes, question)
    if row.refusal is not None:
        why = _refusal_line(piece, row, allow)
        if allow is not None or question.as_program or not is_text:
            is_refused = allow is not None and not (piece.is_cut and not missing)
            status = Word.REFUSED if is_refused else Word.UNREADABLE
            findings.append(Finding("refused" if is_refused else "broken-pickle", why))
    elif no is not None:
        status = Word.REFUSED
    findings += [] if row.is_complete else [_CUT_NAMES]
    if row.kept != KEEPS_NOTHING:
        status, why = told_of_kept(row.kept, status, why, allow, findings)
    more = len(row.names) - len(imports)
    why += f"; {more:,} names more than a report has room for" if more and row.is_complete else ""
    if row.costly is not None:
        findings.append(cost_finding(row.costly, row.costly_at, row.costly_number))
        why = f"no: {findings[-1].why}" if row.refusal is None and no is not None else why
    report = Report(
        piece.path,
        _kind_of(piece, row),
        status,
        why,
        piece.source.size,
        sha256_of(piece.source) if question.with_sha256 else "",
        row.pickles,
        imports,
        missing,
        (),
        listing(row),
        0 if no is None else no.at,
        place.path,
    )
    return _completed(report, row, question, place.budget, findings)


def _completed(
    report: Report, row: Row, question: Question, budget: Budget, findings: List[Finding]
) -> Report:
    """The report with what a guard would say of accepted pickles, and what they call."""
    held = [(source, max(row.pickles, 1)) for source in row.sources if row.names]
    if report.status is Word.ACCEPTED and held and question.allow is not None:
        report = _foreseen(report, held, budget, question.allow, findings)
    elif report.status is Word.UNJUDGED:
        findings += called_findings(held)
    findings = _with_calls(findings, row.source, row.taken, budget, question)
    return judged(_raw(report, row.raw, findings) if row.raw else report, findings)


def _refusal_line(piece: Piece, row: Row, allow: Optional[AllowList]) -> str:
    """The line of a refusal, with a hint and what loading the pickle costs."""
    assert row.refusal is not None
    why = row.refusal.line(64)
    if row.number:
        why = why.replace("no at", f"no in pickle {row.number} at", 1)
    own = None if allow is None else allow.limits
    limits = row.limits(piece.source.size)
    hint = hint_of(row.refusal, piece.source.read, within(limits, own) or limits)
    why += f" ({hint})" if hint else ""
    return why + (bill_of(row.refused[0], row.names) if row.refusal.reason in COUNTED else "")


def _raw(report: Report, why: str, findings: List[Finding]) -> Report:
    """The report on a file with arrays that could not be left out."""
    findings.append(Finding("raw-arrays", why))
    status = Word.REFUSED if report.status is Word.REFUSED else Word.UNREADABLE
    why = f"{why}; what was read: {report.why}"
    return report._replace(kind="joblib", status=status, why=why)


def _kind_of(piece: Piece, row: Row) -> str:
    if _has_text(piece, row):
        return "text"
    if row.pickles < 2 or piece.most:
        return piece.kind
    return "stream of pickles" if piece.kind == "pickle" else f"{piece.kind}, stream of pickles"


def _has_text(piece: Piece, row: Row) -> bool:
    """Whether it is a text whose first characters look like instructions, and all readers stop in
    it. If its end stops them, these are imports alone.
    """
    front = piece.source.front()
    if piece.is_claimed or row.pickles or row.stop < 0 or front[:1] == b"\x80":
        return False
    if row.is_cut and _IMPORTS.fullmatch(front[: row.stop]) is None:
        return False
    return is_text(front)

"""A file that keeps the reports of a scan, so that a second run continues the first."""

from __future__ import annotations

import contextlib
import hashlib
import json
import os
import sqlite3
from typing import Iterable, Iterator, List

from .._storklocker import version as __version__
from .._meant import of as meant_in
from .file import File
from .judging import Question
from .listed import said_by
from .report import Report, report_of

_TABLES = """
create table if not exists question (digest text primary key);
create table if not exists reports (path blob primary key, stamp text, reports text) without rowid;
"""
_COMMIT = 500
"""After how many files what was found is safe on disk."""


class Store:
    """The reports on the files that have been scanned for a question."""

    def __init__(self, path: str, question: Question) -> None:
        self._digest, self._unsaved = _digest(question), 0
        try:
            self._base = sqlite3.connect(path)
            self._base.executescript(_TABLES)
            self._base.execute("insert or ignore into question values (?)", (self._digest,))
            asked = [row[0] for row in self._base.execute("select digest from question")]
        except sqlite3.Error as error:
            raise OSError(f"{path} isn't a file of --resume: {error}") from None
        if asked != [self._digest]:
            raise OSError(f"{path} belongs to a scan with another list, format or version")
        self._base.commit()

    def marked(self, files: Iterable[File]) -> Iterator[File]:
        """The files, those that haven't changed since they were scanned with their reports."""
        for file in files:
            row = self._base.execute(
                "select reports from reports where path = ? and stamp = ?",
                (os.fsencode(file.path), file.stamp),
            ).fetchone()
            if row is not None and file.stamp:
                reports = tuple(report_of(it) for it in json.loads(row[0]))
                file = file._replace(known=reports)
            yield file

    def put(self, file: File, reports: List[Report]) -> None:
        """Keeps the reports on a file, unless it may be read another time."""
        if file.known is not None or not file.stamp or any(map(_is_unread, reports)):
            return
        text = json.dumps([report.as_dict() for report in reports])
        row = (os.fsencode(file.path), file.stamp, text)
        self._base.execute("insert or replace into reports values (?, ?, ?)", row)
        self._unsaved += 1
        if self._unsaved >= _COMMIT:
            self._base.commit()
            self._unsaved = 0

    def close(self) -> None:
        """Writes what is left."""
        with contextlib.suppress(sqlite3.ProgrammingError):
            self._base.commit()
            self._base.close()


def _is_unread(report: Report) -> bool:
    return any(finding.kind == "unreadable" for finding in report.findings)


def _digest(question: Question) -> str:
    """What the question is, in a few bytes."""
    allow = question.allow
    listed = None
    if allow is not None:
        said = sorted(said_by(meant_in(allow)).items())
        listed = [list(allow), str(allow.limits), allow.build, said]
    asked = [question.with_sha256, question.dangers, question.with_unrecognized]
    text = json.dumps([__version__, listed, *asked])
    return hashlib.sha256(text.encode()).hexdigest()

"""Scans one file."""

from __future__ import annotations

import contextlib
import errno
import os
import stat
import sys
from typing import BinaryIO, ContextManager, List

from .beside import beside
from .condensing import condensed, is_small
from .file import File, is_url
from .judging import Question, lone_report, reports_of, reports_of_value
from .report import Finding, Report, unreadable
from .source import whole_of
from .words import Word

_NOTHING = (errno.ENOENT, errno.ENOTDIR, errno.ELOOP)


def scan_file(file: File, question: Question) -> List[Report]:
    """The reports on a file; `-` is standard input."""
    name = _name_of(file)
    if not file.is_opened and _is_dangling(name):
        finding = Finding("dangling-link", "a link to nothing")
        return [Report(name, "link", Word.NO_PICKLE, finding.why, findings=(finding,), file=name)]
    reports: List[Report] = []
    try:
        if file.value is not None:
            found = reports_of_value(name, file.value, question)
            reports += condensed(found)
        elif file.path == "-" or is_url(file.path) and not file.held:
            with _opened(file.path) as opened:
                _examine(opened, file, question, reports)
        else:
            _examine_local(file, question, reports)
        return reports
    except MemoryError:
        why = "out of memory"
    except OSError as error:
        why = error.strerror or str(error)
    except Exception as error:  # one file must not stop the scan of the others
        why = f"cannot read it: {type(error).__name__}: {error}"
    return [*reports, unreadable(name, "file", Finding("unreadable", why), name)]


def _name_of(file: File) -> str:
    return "standard input" if file.path == "-" else file.path


def reports_on(file: File, question: Question) -> List[Report]:
    """The reports on a file, or those of an earlier scan."""
    return scan_file(file, question) if file.known is None else list(file.known)


def _is_dangling(path: str) -> bool:
    """Whether it is a link to nothing, where no reader reads anything."""
    try:
        os.stat(path)
    except OSError as error:
        return error.errno in _NOTHING and os.path.islink(path)
    return False


def _opened(path: str) -> ContextManager[BinaryIO]:
    if path == "-":
        return contextlib.nullcontext(sys.stdin.buffer)
    from .remote import opened  # few files are at URLs

    return opened(path)


def _examine_local(file: File, question: Question, reports: List[Report]) -> None:
    """Adds the reports on a file of this machine, which is opened once: a pipe has one reader."""
    descriptor = _descriptor_of(file)
    try:
        lone = lone_report(file.path, whole_of(descriptor), question)
        if lone is None:
            # (buffered if it isn't small; or else it asks for a terminal)
            with open(descriptor, "rb", 0, closefd=False) as opened:
                _examine(opened, file, question, reports, False)
        elif is_small(lone):
            reports.append(lone)
        else:
            reports.extend(condensed([lone]))
    finally:
        os.close(descriptor)


def _examine(
    opened: BinaryIO,
    file: File,
    question: Question,
    reports: List[Report],
    may_be_lone: bool = True,
) -> None:
    """Adds the reports on an opened file, one after another: what is told stays, if it fails."""
    found = reports_of(_name_of(file), opened, question, lambda: beside(file), may_be_lone)
    for report in condensed(found):
        reports.append(report)


def _descriptor_of(file: File) -> int:
    if file.is_opened:
        return os.open(file.held or file.path, os.O_RDONLY)
    if stat.S_ISDIR(os.stat(file.path).st_mode):
        raise OSError("a folder of devices, or a link to one or to a folder around it: not entered")
    raise OSError("not a regular file")  # a pipe could block forever

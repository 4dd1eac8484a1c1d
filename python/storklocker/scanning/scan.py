"""Scans many files."""

from __future__ import annotations

from typing import Iterable, Iterator, List, NamedTuple, Optional, TextIO, Tuple

from .file import File
from .judging import Question
from .one_file import reports_on
from .pacing import paced
from .report import Report, of_one_file
from .summary import Progress


class Means(NamedTuple):
    """Where files are scanned, and what is kept of it."""

    jobs: int = 1
    """The number of processes."""
    cluster: str = ""
    """The address of the scheduler of a cluster whose workers scan, if any."""
    resume: str = ""
    """The file that keeps the reports for another run, if any."""
    rate: float = 0
    """The most files a second; 0: as fast as they are read."""


def scan(
    files: Iterable[File],
    question: Question,
    means: Means = Means(),
    progress: Optional[TextIO] = None,
) -> Iterator[Report]:
    """Yields the reports on all files, in the order in which they are listed."""
    told, store = Progress(progress), None
    if means.resume:
        from .store import Store  # few scans go on with another

        store = Store(means.resume, question)
        files = store.marked(files)
    if means.rate:
        files = paced(files, means.rate)
    try:
        for file, reports in _scanned(files, question, means):
            if store is not None:
                store.put(file, reports)
            told.add(reports)
            yield from of_one_file(reports)
    finally:
        told.end()
        if store is not None:
            store.close()


def _scanned(
    files: Iterable[File], question: Question, means: Means
) -> Iterator[Tuple[File, List[Report]]]:
    if means.cluster:
        from .cluster import scan_in_cluster  # few scans have any

        return scan_in_cluster(files, question, means.cluster)
    if means.jobs > 1:
        from .processes import scan_in_processes  # it needs modules that take long

        return scan_in_processes(files, question, means.jobs)
    return ((file, reports_on(file, question)) for file in files)

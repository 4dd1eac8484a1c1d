"""The digests of what reports are on."""

from __future__ import annotations

from typing import Iterable, Iterator

from .budget import UNPACKED
from .report import Report
from .source import Source


def sha256_of(source: Source) -> str:
    """The digest of all bytes, unless there are very many."""
    import hashlib  # a table has no need of it

    if source.size > UNPACKED:
        return ""
    made, at = hashlib.sha256(), 0
    while at < source.size:
        data = source.read(at, 1 << 20)
        if not data:
            break
        made.update(data)
        at += len(data)
    return made.hexdigest()


def with_sha256(reports: Iterable[Report], source: Source) -> Iterator[Report]:
    """The reports, those with findings on what is no pickle with the digest of the whole file."""
    whole = ""
    for report in reports:
        if report.findings and not report.sha256:
            whole = whole or sha256_of(source)
            report = report._replace(sha256=whole)
        yield report

"""What `storklocker scan` writes: which reports, in which format."""

from __future__ import annotations

import argparse
import os
import shlex
import sys
from typing import Iterable, Iterator

from .._storklocker import version as __version__
from . import formats
from .colour import paint_for
from .file import is_url
from .report import Report, shown
from .severity import DANGER, NOTE, SEVERITIES, UNKNOWN, WARNING
from .summary import Summary, counted

FORMATS = ("table", "json", "ndjson", "sarif", "html", "junit")
ALL = "all"
SHOW = (ALL, NOTE, UNKNOWN, WARNING, DANGER)
"""The choices of `--show`."""
_HELD = 1 << 24
"""The most bytes of a table that are held in memory: the verdict comes before it."""


def lines(asked: argparse.Namespace, reports: Iterable[Report], told: Summary) -> Iterator[str]:
    """The lines of the output, from reports that the summary has heard when they end."""
    if asked.show not in (None, ALL):
        reports = listed(reports, asked.show)
    if asked.format == "json":
        return formats.as_json(reports)
    if asked.format == "ndjson":
        return formats.as_ndjson(reports)
    reports = without_known(reports)
    if asked.format == "table":
        return _table(asked, reports, told)
    if asked.format in ("sarif", "html"):
        from ..explaining.reports import explained  # a table has no need of it

        reports = explained(reports)
    if asked.format == "sarif":
        from . import sarif  # (the same)

        return sarif.as_sarif(reports, __version__)
    if asked.format == "junit":
        from . import junit  # (the same)

        return junit.as_junit(reports, counted(asked.fail_on, asked.guarded))
    from . import html  # (the same)

    return html.page(reports, __version__)


def is_on_terminal(asked: argparse.Namespace) -> bool:
    """Whether a reader sees the table while it is written."""
    return asked.format == "table" and sys.stdout.isatty()


def without_known(reports: Iterable[Report]) -> Iterator[Report]:
    """The reports without known findings, and without those that have no others."""
    for report in reports:
        found = report.fresh
        if len(found) == len(report.findings):
            yield report
        elif found:
            yield report._replace(findings=found)


def listed(reports: Iterable[Report], least: str) -> Iterator[Report]:
    """The findings that are at least so bad."""
    wanted = SEVERITIES[: SEVERITIES.index(least) + 1]
    for report in reports:
        found = tuple(it for it in report.findings if it.severity in wanted)
        if found or report.status.value in wanted:
            yield report._replace(findings=found)


def _table(asked: argparse.Namespace, reports: Iterable[Report], told: Summary) -> Iterator[str]:
    quiet = sys.maxsize if asked.show == ALL else formats.QUIET if _is_lone(asked) else 0
    paint = paint_for(asked.color, sys.stdout)
    if not is_on_terminal(asked):
        yield from formats.table(reports, quiet, paint)
        if told.known:
            yield f"{told.known:,} known findings are left out"
        return
    if asked.show is None and not quiet:
        reports = listed(reports, SEVERITIES[-1])
    import tempfile  # which needs modules that take a sixth of a start

    with tempfile.SpooledTemporaryFile(_HELD, "w+", encoding="utf-8") as held:
        for line in formats.rows(reports, quiet, paint):
            held.write(f"{line}\n")
        held.seek(0)
        yield paint(*told.headline())
        yield from (line.rstrip("\n") for line in held)
    yield shown(told.line(more(asked)), 2000)


def _is_lone(asked: argparse.Namespace) -> bool:
    """Whether one file is scanned, of which is told what it is."""
    path = asked.paths[0] if len(asked.paths) == 1 else ""
    return bool(path) and not (is_url(path) or os.path.isdir(path))


def more(asked: argparse.Namespace) -> str:
    """The command that writes the page with everything that was found."""
    words = ["storklocker", "scan", *([] if asked.files_from else asked.paths)]
    for option in ("files_from", "danger", "baseline"):
        value = getattr(asked, option)
        words += (f"--{option.replace('_', '-')}", value) if value else ()
    for option in ("allow", "include", "exclude"):
        for value in getattr(asked, option) or ():
            words += (f"--{option}", value)
    words += [] if asked.recursive else ["--no-recursive"]
    words += ["--null"] if asked.null else []
    return " ".join(map(shlex.quote, [*words, "--format", "html"])) + " >report.html"

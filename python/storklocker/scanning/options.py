"""The options of `storklocker scan`, and those that it shares with other commands."""

from __future__ import annotations

import argparse
from typing import Any, Optional, Sequence, Union

from .listed import GUARDED, LISTS
from .showing import FORMATS, SHOW
from .summary import FAIL_ON

PATH = "a file, a folder, or - for standard input"
_URL = f"{PATH}; or a URL of either that fsspec opens"


class _Append(argparse.Action):
    """Appends to what the command line has, and not to a default of pyproject.toml."""

    def __call__(
        self,
        parser: argparse.ArgumentParser,
        asked: argparse.Namespace,
        values: Union[str, Sequence[Any], None],
        option: Optional[str] = None,
    ) -> None:
        held = getattr(asked, self.dest)
        setattr(asked, self.dest, [*([] if held is self.default else held), values])


def add_descending(it: argparse.ArgumentParser) -> None:
    """Adds what says whether subfolders are scanned."""
    it.add_argument(
        "--no-recursive",
        action="store_false",
        dest="recursive",
        help="leave out subfolders; causes status 2 if there are any",
    )
    it.add_argument("--recursive", action="store_true", default=True, help=argparse.SUPPRESS)


def add_options(it: argparse.ArgumentParser) -> None:
    """Adds the options of `scan`."""
    _add_files(it)
    _add_judgements(it)
    _add_means(it)
    _add_output(it)
    it.add_argument(
        "--no-config",
        "--isolated",
        action="store_true",
        help="ignore [tool.storklocker] in pyproject.toml, which is otherwise read from the current"
        " folder or the nearest one above, never from a scanned folder",
    )


def _add_files(it: argparse.ArgumentParser) -> None:
    it.add_argument("paths", nargs="*", metavar="PATH", help=_URL)
    it.add_argument(
        "--files-from",
        metavar="FILE",
        help="also scan the files that this file names, one a line; - is standard input",
    )
    it.add_argument(
        "-0", "--null", action="store_true", help="names in --files-from end with NUL, not lines"
    )
    add_descending(it)
    for option, what in (("--include", "scan only"), ("--exclude", "leave out")):
        it.add_argument(
            option,
            action=_Append,
            default=[],
            metavar="PATTERN",
            help=f"{what} files of a folder whose name, or path if PATTERN has a slash, matches",
        )


def _add_judgements(it: argparse.ArgumentParser) -> None:
    it.add_argument("--allow", action=_Append, metavar="LIST", help=LISTS)
    it.add_argument(
        "--danger",
        metavar="FILE",
        help="a file of more dangerous names: a line `[danger] A sentence.`, then one name a line",
    )
    it.add_argument(
        "--baseline",
        metavar="FILE",
        help="ignore the findings of this JSON report while the bytes are the same",
    )
    it.add_argument(
        "--fail-on",
        choices=FAIL_ON,
        help="the least severe finding that causes status 1: by default refused with --allow,"
        " otherwise unknown",
    )
    it.add_argument("--guarded", action="store_true", help=GUARDED)


def _add_means(it: argparse.ArgumentParser) -> None:
    it.add_argument(
        "--jobs", type=_jobs, default=1, metavar="N", help="number of processes; 1 by default"
    )
    it.add_argument(
        "--cluster",
        metavar="ADDRESS",
        help="scan on the workers of the dask.distributed cluster with this scheduler",
    )
    it.add_argument(
        "--rate", type=_rate, default=0, metavar="N", help="scan at most N files a second"
    )
    it.add_argument(
        "--follow",
        action="store_true",
        help="go on with what is added to files, lists and topics; needs --format ndjson",
    )
    it.add_argument(
        "--resume",
        metavar="FILE",
        help="keep reports in this file, and reuse those of an earlier run",
    )


def _add_output(it: argparse.ArgumentParser) -> None:
    it.add_argument(
        "--format",
        choices=FORMATS,
        default="table",
        help="the format of the report; a table by default",
    )
    it.add_argument(
        "--show",
        choices=SHOW,
        help="list findings from this severity on, or all files; by default a terminal shows the"
        " findings, and a table elsewhere also has all pickles",
    )
    it.add_argument(
        "--color",
        choices=("auto", "always", "never"),
        default="auto",
        help="colour a table: by default on a terminal, unless NO_COLOR is set",
    )
    it.add_argument("-q", "--quiet", action="store_true", help="print nothing but errors")


def _rate(word: str) -> float:
    try:
        rate = float(word)
    except ValueError:
        rate = 0
    if not 0.001 <= rate <= 1_000_000:
        raise argparse.ArgumentTypeError("expected a number from 0.001 to 1000000")
    return rate


def _jobs(word: str) -> int:
    if not word.isdecimal() or not 1 <= int(word[:4]) <= 256:
        raise argparse.ArgumentTypeError("expected a number from 1 to 256")
    return int(word)

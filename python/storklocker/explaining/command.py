"""The command `storklocker explain`."""

from __future__ import annotations

import argparse
import json
import sys
from typing import Any, BinaryIO, Dict, Iterable, Iterator, Tuple

from ..scanning.budget import TooMuch
from ..scanning.colour import paint_for
from ..scanning.judging import Question, reports_of
from ..scanning.report import shown
from ..scanning.source import source_of
from ..scanning.words import Word
from . import verdict_of
from .pickles import Followed, followed_in
from .printing import Part, part_of

YES, NO, FAULT = 0, 1, 2
PICKLES, MOST = 100, 5000
"""The most pickles of a file that are explained, and the most among which dangerous ones are."""
VERSION = 1
"""The version of the JSON, which `docs/explain.schema.json` describes."""


def add_command(commands: "argparse._SubParsersAction[argparse.ArgumentParser]") -> None:
    """Adds the command to a parser."""
    it = commands.add_parser(
        "explain",
        help="says what loading a file would do, as Python",
        description="Prints what loading a file's pickles would do, as statements of Python with"
        " the offsets of their instructions. Nothing is run.",
    )
    it.add_argument("file", metavar="FILE", help="a file, or - for standard input")
    it.add_argument("--full", action="store_true", help="fold nothing, and stop nowhere")
    it.add_argument(
        "--format", choices=("text", "json"), default="text", help="the format; text by default"
    )
    it.add_argument(
        "--color", choices=("auto", "always", "never"), default="auto", help="use colours"
    )
    it.set_defaults(run=_explain)


def _explain(asked: argparse.Namespace) -> int:
    if asked.file == "-":
        return _explained(asked, sys.stdin.buffer)
    with open(asked.file, "rb") as file:
        return _explained(asked, file)


def _explained(asked: argparse.Namespace, file: BinaryIO) -> int:
    try:
        source = source_of(file)
    except TooMuch as error:
        raise OSError(str(error)) from None
    reports = list(reports_of(asked.file, source.opened(), Question(as_program=True)))
    verdict = verdict_of(reports)
    parts = _Parts(followed_in(asked.file, source, asked.full), asked.full)
    if asked.format == "json":
        print(json.dumps({"version": VERSION, **_as_dict(asked.file, verdict, parts)}))
    else:
        for line in _lines(asked, verdict, parts):
            print(line)
    if any(it.status is Word.UNREADABLE and not it.pickles for it in reports):
        return FAULT
    return NO if any(it.status is Word.UNREADABLE for it in reports) else YES


class _Parts:
    """The explanations of a file's pickles. Behind many, only the dangerous ones follow."""

    def __init__(self, found: Iterable[Followed], is_full: bool) -> None:
        self._found, self._is_full = found, is_full
        self.left_out = 0

    def __iter__(self) -> Iterator[Part]:
        count = 0
        for it in self._found:
            part = part_of(it, self._is_full)
            count += 1
            if count <= PICKLES or self._is_full:
                yield part
            elif part.worst and count <= MOST:
                yield part._replace(lines=())
            else:
                self.left_out += 1


def _as_dict(path: str, verdict: Tuple[str, str], parts: _Parts) -> Dict[str, Any]:
    word, headline = verdict
    made: Dict[str, Any] = {"path": path, "verdict": word, "headline": headline}
    made["pickles"] = [it.as_dict() for it in parts]
    return {**made, "left_out": parts.left_out}


def _lines(asked: argparse.Namespace, verdict: Tuple[str, str], parts: _Parts) -> Iterator[str]:
    paint = paint_for(asked.color, sys.stdout)
    word, headline = verdict
    yield paint(f"# {word}: {headline}", word)
    for it in parts:
        if it.path != asked.file or it.kind != "pickle":
            yield f"# {shown(it.path)}  {it.kind}"
        yield from it.written(paint)
    if parts.left_out:
        yield f"# {parts.left_out:,} more pickles (--full has them)"

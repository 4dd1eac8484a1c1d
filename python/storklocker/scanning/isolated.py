"""Scans files in a process of its own, so that a file that ends the process ends nothing else.

The process reads what it has to find out, then lines of JSON, each a file, and answers each with a
line, its reports.
"""

from __future__ import annotations

import base64
import json
import os
import pickle
import subprocess
import sys
import tempfile
from pathlib import Path
from typing import Dict, List, NamedTuple, Optional, Sequence

from .file import File, is_url
from .fronts import is_refused
from .judging import Question
from .report import Finding, Report, report_of, unreadable
from .one_file import scan_file

TRIES = 2
"""How often a file is read, if each time the process ends."""
_PACKAGE = str(Path(__file__).resolve().parents[2])


class Start(NamedTuple):
    """How the process is started."""

    words: List[str]
    environment: Dict[str, str]


def start() -> Start:
    """How the process is started."""
    path = os.pathsep.join(filter(None, [_PACKAGE, os.environ.get("PYTHONPATH", "")]))
    return Start([sys.executable, "-m", __name__], {**os.environ, "PYTHONPATH": path})


def line_of_questions(questions: Sequence[Question]) -> bytes:
    """The first line that the process reads."""
    return base64.b64encode(pickle.dumps(tuple(questions))) + b"\n"


def line_of(file: File, question: int = 0, is_front: bool = False) -> bytes:
    """The line of a file, of which a question is asked. `is_front`: whether more bytes may follow
    it, so that there are reports only if it is refused whatever these are.
    """
    names = [os.fsencode(it).hex() for it in (file.path, file.held)]
    is_value = file.value is not None
    return json.dumps([names, file.is_opened, question, is_front, is_value]).encode() + b"\n"


def reports_in(answer: bytes) -> List[Report]:
    """The reports in a line that the process has answered."""
    return [report_of(it) for it in json.loads(answer)]


class Isolated:
    """Scans files in a process of its own, which is started again when it ends."""

    def __init__(self, question: Question) -> None:
        self._question = line_of_questions([question])
        self._process: Optional["subprocess.Popen[bytes]"] = None

    def scan(self, file: File) -> List[Report]:
        """The reports on a file."""
        if file.value is not None:
            with tempfile.TemporaryDirectory(prefix="storklocker-") as folder:
                Path(folder, "value").write_bytes(file.value)
                return self._tried(file._replace(held=str(Path(folder, "value"))))
        if not is_url(file.path):
            return self._tried(file)
        from .remote import held  # few files are at URLs

        try:
            with held(file) as copied:
                return self._tried(copied)
        except Exception as error:  # file systems may raise anything
            why = f"cannot read it: {type(error).__name__}: {error}"
            return [unreadable(file.path, "file", Finding("unreadable", why), file.path)]

    def _tried(self, file: File) -> List[Report]:
        for _ in range(TRIES):
            answer = self._asked(file)
            if answer:
                return reports_in(answer)
        why = f"the process that read it ended, {TRIES} times"
        return [unreadable(file.path, "file", Finding("unreadable", why), file.path)]

    def _asked(self, file: File) -> bytes:
        """The answer of the process; none if it has ended."""
        process = self._process or self._started()
        assert process.stdin is not None and process.stdout is not None
        try:
            process.stdin.write(line_of(file))
            process.stdin.flush()
            answer = process.stdout.readline()
        except BrokenPipeError:
            answer = b""
        if not answer.endswith(b"\n"):
            self.end()
            return b""
        return answer

    def _started(self) -> "subprocess.Popen[bytes]":
        words, environment = start()
        self._process = subprocess.Popen(
            words, stdin=subprocess.PIPE, stdout=subprocess.PIPE, env=environment
        )
        assert self._process.stdin is not None
        self._process.stdin.write(self._question)
        return self._process

    def end(self) -> None:
        """Ends the process."""
        process, self._process = self._process, None
        if process is not None:
            process.kill()
            process.communicate()


def _main() -> None:
    """Answers the lines of standard input."""
    questions: Sequence[Question] = pickle.loads(base64.b64decode(sys.stdin.buffer.readline()))
    for line in sys.stdin.buffer:
        names, is_opened, number, is_front, is_value = json.loads(line)
        path, held = (os.fsdecode(bytes.fromhex(it)) for it in names)
        question = questions[number]
        reports: List[Report] = []
        if not is_front or is_refused(Path(held or path), question.allow):
            value = Path(held).read_bytes() if is_value else None
            reports = scan_file(File(path, is_opened, held=held, value=value), question)
        print(json.dumps([report.as_dict() for report in reports]), flush=True)


if __name__ == "__main__":
    _main()

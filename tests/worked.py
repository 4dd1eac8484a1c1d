"""Runs the examples of a document, and compares their output with the document.

They run in order, in one folder, which is like the top of the repository: the commands of `console`
blocks each in a shell, all `pycon` blocks in one session. So what one writes, the next can read.
PKTOOL names the program, otherwise it is the launcher; PYTHON an interpreter with the package. The
package is the one that was built here, or else the one that is installed.
"""

import ast
import contextlib
import doctest
import itertools
import json
import os
import shlex
import shutil
import signal
import subprocess
import sys
import tempfile
import threading
from pathlib import Path
from typing import Any, Dict, Iterator, List, NamedTuple, Optional, Tuple

ROOT = Path(__file__).resolve().parent.parent
SECONDS = 120
# The line by which a session says that a block has ended.
DONE = "done"
# With its folder: the examples find this module's own `python3` first, which runs it.
PYTHON = shutil.which(os.environ.get("PYTHON", sys.executable)) or sys.executable


class Block(NamedTuple):
    """A fenced block of a document."""

    language: str
    line: int
    text: str


def blocks_of(text: str) -> Iterator[Block]:
    """The fenced blocks of a document, without their margin."""
    inside: List[str] = []
    start, margin, language = 0, 0, ""
    for number, line in enumerate(text.splitlines(), 1):
        if not line.lstrip().startswith("```"):
            inside.append(line[margin:])
        elif start == 0:
            margin = len(line) - len(line.lstrip())
            start, language, inside = number, line.strip("` "), []
        else:
            yield Block(language, start + 1, "\n".join(inside) + "\n")
            start = margin = 0


def commands_of(block: Block) -> Iterator[Tuple[int, str, str]]:
    """The commands of a shell block: the line of each, the command, and its output."""
    parts = ("\n" + block.text).split("\n$ ")
    line = block.line + parts[0].count("\n")
    for part in parts[1:]:
        command, _, printed = part.partition("\n")
        while command.endswith("\\"):
            more, _, printed = printed.partition("\n")
            command += "\n" + more
        yield line, command, printed.rstrip("\n")
        line += part.count("\n") + 1


def environment() -> Dict[str, str]:
    """The environment of an example."""
    found = {"PYTHONDONTWRITEBYTECODE": "1", **os.environ}
    if "PYTHONPATH" not in found and list(ROOT.glob("python/storklocker/_storklocker*.so")):
        found["PYTHONPATH"] = str(ROOT / "python")
    return found


def has_package() -> bool:
    """Whether the Python package is built or installed."""
    words = [PYTHON, "-c", "import storklocker"]
    return subprocess.run(words, env=environment(), stderr=subprocess.DEVNULL).returncode == 0


def make_command(file: Path, *words: str) -> None:
    """Makes a command that runs another."""
    line = " ".join(shlex.quote(word) for word in words)
    file.write_text(f'#!/bin/sh\nexec {line} "$@"\n')
    file.chmod(0o755)


@contextlib.contextmanager
def top() -> Iterator[Path]:
    """A folder like the top of the repository, whose `pktool` is the program that is named. Its
    `bin` has the interpreter, and the package's command.
    """
    program = os.path.abspath(os.environ.get("PKTOOL", str(ROOT / "pktool")))
    subprocess.run([program, "--help"], stdout=subprocess.DEVNULL)  # its first use says so
    with tempfile.TemporaryDirectory(prefix="top-") as name:
        folder = Path(name)
        for path in ROOT.iterdir():
            if path.name != "pktool":
                (folder / path.name).symlink_to(path)
        make_command(folder / "pktool", program)
        (folder / "bin").mkdir()
        make_command(folder / "bin" / "python3", PYTHON)
        make_command(folder / "bin" / "storklocker", PYTHON, "-m", "storklocker")
        yield folder


def started(command: List[str], folder: Path) -> "subprocess.Popen[str]":
    """A command that runs in a folder."""
    return subprocess.Popen(
        command,
        cwd=folder,
        env={**environment(), "PATH": f"{folder / 'bin'}:{os.environ['PATH']}"},
        stdin=subprocess.PIPE,
        stdout=subprocess.PIPE,
        stderr=subprocess.STDOUT,
        encoding="utf-8",
        errors="replace",
        start_new_session=True,
    )


def stop(process: "subprocess.Popen[str]") -> None:
    """Ends a command with all its children."""
    os.killpg(process.pid, signal.SIGKILL)


def run(command: List[str], folder: Path) -> str:
    """The output of a command in a folder."""
    process = started(command, folder)
    try:
        return process.communicate("", timeout=SECONDS)[0].rstrip("\n")
    except subprocess.TimeoutExpired:
        stop(process)
        process.communicate()
        return f"no answer within {SECONDS} seconds"


def faults_of_shell(block: Block, folder: Path) -> Iterator[Tuple[int, str]]:
    """The commands with another output."""
    for line, command, printed in commands_of(block):
        told = run(["sh", "-c", command], folder)
        if told != printed:
            yield line, f"{command} prints\n{told}"


def session_of(blocks: List[Block]) -> str:
    """What a session reads: a line for each block, which keeps the line numbers of the document."""
    texts = ("\n" * (block.line - 1) + block.text for block in blocks)
    return "".join(json.dumps(text) + "\n" for text in texts)


def run_session() -> int:
    """Runs the blocks on standard input, in one session. This is the process of the examples."""
    flags = doctest.NORMALIZE_WHITESPACE | doctest.REPORT_NDIFF
    names: Dict[str, Any] = {}
    failed = 0
    for line in sys.stdin:
        test = doctest.DocTestParser().get_doctest(json.loads(line), names, "document", None, 0)
        runner = doctest.DocTestRunner(verbose=False, optionflags=flags)
        failed += runner.run(test, clear_globs=False).failed
        names = test.globs
        print(DONE, flush=True)
    return failed


class Session:
    """One session of Python, which runs the blocks of a document. The first block begins it."""

    def __init__(self, folder: Path) -> None:
        self._folder = folder
        self._process: Optional["subprocess.Popen[str]"] = None

    def __enter__(self) -> "Session":
        return self

    def __exit__(self, *_: Any) -> None:
        if self._process is None:
            return
        try:
            self._process.communicate(timeout=SECONDS)
        except subprocess.TimeoutExpired:
            stop(self._process)
            self._process.communicate()

    def faults_of(self, block: Block) -> Iterator[Tuple[int, str]]:
        """The report on the examples of a block."""
        if self._process is None:
            self._process = started([PYTHON, os.path.abspath(__file__)], self._folder)
        asked, answer = self._process.stdin, self._process.stdout
        assert asked and answer
        clock = threading.Timer(SECONDS, stop, [self._process])
        clock.start()
        told = ""
        try:
            asked.write(session_of([block]))
            asked.flush()
            for line in answer:
                if line == DONE + "\n":
                    break
                told += line
            else:
                told += "the session has ended"
        except BrokenPipeError:
            told = "the session has ended"
        finally:
            clock.cancel()
        if told:
            yield block.line, told


def faults_of_program(block: Block) -> Iterator[Tuple[int, str]]:
    """Python's errors about the syntax of a program."""
    try:
        ast.parse(block.text)
    except SyntaxError as error:
        yield block.line - 1 + (error.lineno or 1), str(error)


def faults_of_session(text: str) -> List[Tuple[int, str]]:
    """What is wrong with a file that is one session of Python."""
    with top() as folder, Session(folder) as session:
        return list(session.faults_of(Block("pycon", 1, text)))


def needs_package(block: Block) -> bool:
    """Whether a block needs the Python package."""
    commands = [command for _, command, _ in commands_of(block)]
    return block.language == "pycon" or any("storklocker " in command for command in commands)


def examples(text: str, with_package: bool) -> Tuple[int, List[Tuple[int, str]]]:
    """How many blocks of a document ran, and what is wrong with them, each with its line. Some
    need the package.
    """
    blocks = [it for it in blocks_of(text) if it.language in ("console", "pycon", "python")]
    if not with_package:  # what comes after a block that needs it may need what that writes
        blocks = list(itertools.takewhile(lambda it: not needs_package(it), blocks))
    faults: List[Tuple[int, str]] = []
    with top() as folder, Session(folder) as session:
        for block in blocks:
            if block.language == "console":
                faults += faults_of_shell(block, folder)
            elif block.language == "python":
                faults += faults_of_program(block)
            else:
                faults += session.faults_of(block)
    return len(blocks), faults


if __name__ == "__main__":
    sys.exit(run_session())

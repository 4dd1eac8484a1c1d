"""The commands that the program `pktool` runs, which the released wheels contain."""

from __future__ import annotations

import argparse
import os
import signal
import sys
from pathlib import Path
from typing import Sequence

COMMANDS = {
    "dis": "lists the instructions of a pickle",
    "json": "converts a plain pickle to JSON",
    "optimize": "rewrites a pickle in fewer bytes",
}
"""What each does. The program reads their arguments, and prints their help."""
PROGRAM = Path(__file__).resolve().parent.parent / "pktool"
STACK = "--stack"
"""The option of `dis` that the program doesn't have."""
_FAULT = 2


def add_command(
    name: str, commands: "argparse._SubParsersAction[argparse.ArgumentParser]"
) -> None:
    """Adds a command to those that the help, the manual page and completions show."""
    it = commands.add_parser(name, help=COMMANDS[name])
    it.add_argument("file", metavar="FILE", help="the pickle; /dev/stdin to read a pipe")
    if name == "optimize":
        it.add_argument("out", metavar="OUT", help="where to write the optimized pickle")
    if name == "dis":
        told = "also the stack and the memo after each, as `explain` follows them"
        it.add_argument(STACK, action="store_true", help=told)
        it.set_defaults(run=_list)


def is_of_program(words: Sequence[str]) -> bool:
    """Whether the program reads these arguments."""
    return bool(words) and words[0] in COMMANDS and not (words[0] == "dis" and STACK in words)


def _list(asked: argparse.Namespace) -> int:
    if not asked.stack:
        return become_program(["dis", "--", asked.file])
    from ..explaining.stacks import list_with_stacks  # few runs show stacks

    try:
        return list_with_stacks(PROGRAM, asked.file)
    except OSError as error:
        if error.filename != str(PROGRAM):
            raise
        return _cannot_run(error)


def become_program(words: Sequence[str]) -> int:
    """Replaces this process by the program, with these arguments. If that fails, says why and
    returns the status.
    """
    for it in (signal.SIGPIPE, signal.SIGXFSZ):
        signal.signal(it, signal.SIG_DFL)  # Python ignores them
    try:
        os.execv(PROGRAM, ["storklocker", *words])
    except OSError as error:
        return _cannot_run(error)


def _cannot_run(error: OSError) -> int:
    print(f"storklocker: cannot run {PROGRAM}: {_advice(error)}", file=sys.stderr)
    return _FAULT


def _advice(error: OSError) -> str:
    """Why the program doesn't start, and what to do."""
    if not PROGRAM.exists():
        return "this package has none: install a released wheel, or run ./pktool of the repository"
    if isinstance(error, PermissionError):
        return "it isn't executable: install the wheel with pip, where programs may run"
    return error.strerror or str(error)

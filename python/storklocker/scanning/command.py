"""The command `storklocker`."""

from __future__ import annotations

import argparse
import contextlib
import functools
import io
import os
import sys
from collections import Counter
from typing import Callable, Dict, Iterable, Iterator, Optional, Sequence, Union

from .._storklocker import version as __version__
from .._lists import has_substitutes
from ..explaining.command import add_command as add_explain
from ..judge.command import add_command as add_judge
from ..serving import command as serve
from . import formats, program, showing
from .answering import FAULT, NO, YES, Checking, Importing, status_of
from .choosing import Choice
from .dangers import import_findings, list_findings, table_of
from .file import File
from .files import Files, names_from
from .judging import Question
from .listed import GUARDED, LISTS, list_of, union_of
from .lists import add_commands
from .options import PATH, add_descending, add_options
from .pacing import grown
from .report import Finding, shown
from .scan import Means, scan
from .severity import DANGER, REFUSED, UNKNOWN, UNRECOGNIZED, WARNING
from .summary import Summary

UNJUDGED = 3

_STATUSES = """exit status:
  0    everything was read to its end, and no finding is as severe as --fail-on
  1    a finding is at least as severe as --fail-on, even if something else couldn't be read:
         refused  a guard with the list refuses it, or may (only a load decides, see --guarded):
                  the default with --allow, and always for `check`
         danger   it imports a name that runs code or writes files
         warning  it imports a name that reads files, reaches the network or changes the process;
                  or a guard refuses it by default, because of what loading it costs or changes
         unknown  it imports a name that nobody has judged: the default without --allow
         note     it is code that `scan` doesn't read, or a link that leads nowhere
         never    no finding causes status 1
       For `imports`, `explain`, `dis`, `json` and `optimize`: a pickle is refused.
  2    something couldn't be read to its end, is packed in an unknown way, or readers differ about
       it; a folder was left unread; or the command line, the list or the output is wrong
  3    for `lint`: no listed name is known to be dangerous, but nobody has judged some
  130  interrupted
"""


def main(words: Optional[Sequence[str]] = None) -> int:
    """Runs the command with these arguments, and returns its status."""
    words = sys.argv[1:] if words is None else words
    if program.is_of_program(words):
        return program.become_program(words)
    parser = command_parser(words[0] if words else "")
    asked = parser.parse_args(words)
    if isinstance(sys.stdout, io.TextIOWrapper):
        # files and pipes get UTF-8; a terminal keeps its encoding
        encoding = None if sys.stdout.isatty() else "utf-8"
        sys.stdout.reconfigure(encoding=encoding, errors="backslashreplace")
    try:
        if not getattr(asked, "no_config", True):
            asked = _configured(parser, asked, words)
        status: int = asked.run(asked)
        sys.stdout.flush()
        return status
    except KeyboardInterrupt:
        return 130
    except OSError as error:
        if not isinstance(error, BrokenPipeError):
            print(f"storklocker: {shown(str(error))}", file=sys.stderr)
        _end_output()
        return FAULT


def _configured(
    parser: argparse.ArgumentParser, asked: argparse.Namespace, words: Sequence[str]
) -> argparse.Namespace:
    """The arguments, with the project's defaults for those that aren't there."""
    from .configuring import configure  # few projects have any

    taken = configure(asked.configured)
    if not taken:
        return asked
    asked = parser.parse_args(words)
    if not asked.quiet:
        print(f"storklocker: options of {shown(taken, 1000)}", file=sys.stderr)
    return asked


def _end_output() -> None:
    """Writes what is still buffered, or drops it: Python would write it again at exit, and turn a
    second failure into status 120.
    """
    try:
        sys.stdout.flush()
    except OSError:
        os.dup2(os.open(os.devnull, os.O_WRONLY), sys.stdout.fileno())


def command_parser(command: str = "") -> argparse.ArgumentParser:
    """The parser of the command line, from which `storklocker.pages` is made too; for a command,
    with no other, because each takes as long as some ten files.
    """
    parser = argparse.ArgumentParser(
        "storklocker",
        description="Lists the names that pickles would import, before anything loads them. Start"
        " with `storklocker scan PATH`.",
        epilog=_STATUSES,
        formatter_class=argparse.RawDescriptionHelpFormatter,
    )
    parser.add_argument("--version", action="version", version=f"storklocker {__version__}")
    commands = parser.add_subparsers(required=True, metavar="COMMAND")
    for name, add in _ADDING.items():
        if name == command or command not in _ADDING:
            add(commands)
    return parser


def _add_scan(commands: "argparse._SubParsersAction[argparse.ArgumentParser]") -> None:
    it = commands.add_parser(
        "scan",
        help="lists the pickles in files, and the names that they would import",
        description="Lists the pickles in files, folders, archives, databases and models, with the"
        " names\nthat they would import, and flags those that run code. Nothing in a file runs.",
        epilog=_STATUSES,
        formatter_class=argparse.RawDescriptionHelpFormatter,
    )
    add_options(it)
    it.set_defaults(run=_scan, configured=it)


def _add_check(commands: "argparse._SubParsersAction[argparse.ArgumentParser]") -> None:
    it = commands.add_parser(
        "check",
        help="checks whether a guard with a list loads files",
        description="Checks whether a guard with this list loads each file: yes, or the offset and"
        " the reason of the refusal.",
    )
    it.add_argument("paths", nargs="+", metavar="FILE", help="a file, or - for standard input")
    it.add_argument("--allow", action="append", metavar="LIST", required=True, help=LISTS)
    it.add_argument("--guarded", action="store_true", help=GUARDED)
    it.set_defaults(run=_check)


def _add_imports(commands: "argparse._SubParsersAction[argparse.ArgumentParser]") -> None:
    it = commands.add_parser(
        "imports",
        help="lists the names that files would import",
        description="Lists each name that the pickles in files would import, once.",
    )
    it.add_argument("paths", nargs="+", metavar="FILE", help="a file, or - for standard input")
    it.set_defaults(run=_imports)


def _add_learn(commands: "argparse._SubParsersAction[argparse.ArgumentParser]") -> None:
    it = commands.add_parser(
        "learn",
        help="writes a list file from trusted files or from logs",
        description="Prints a list file with the names that trusted files import. Dangerous names"
        " become comments: review it before use.",
    )
    it.add_argument("paths", nargs="*", metavar="PATH", help=PATH)
    it.add_argument(
        "--from-log",
        action="append",
        default=[],
        metavar="FILE",
        help="also take the names from a log of a guard's `learning`",
    )
    add_descending(it)
    it.set_defaults(run=_learn)


def _add_lint(commands: "argparse._SubParsersAction[argparse.ArgumentParser]") -> None:
    it = commands.add_parser(
        "lint",
        help="lists the dangerous and the unjudged names in a list",
        description="Lists the names in a list that are dangerous (status 1), that do more than"
        " hold data, or that nobody has judged (status 3).",
    )
    it.add_argument("list", metavar="LIST", help=LISTS)
    it.add_argument(
        "--fail-on",
        choices=(DANGER, UNKNOWN),
        default=UNKNOWN,
        help="the least severe finding that causes status 1 or 3; unknown by default",
    )
    it.set_defaults(run=_lint)


_ADDING: Dict[str, Callable[["argparse._SubParsersAction[argparse.ArgumentParser]"], None]] = {
    "scan": _add_scan,
    "check": _add_check,
    "imports": _add_imports,
    "learn": _add_learn,
    "lint": _add_lint,
    "list": add_commands,
    "judge": add_judge,
    "explain": add_explain,
    "serve": serve.add_command,
    **{name: functools.partial(program.add_command, name) for name in program.COMMANDS},
}
"""What adds each command to a parser."""


@contextlib.contextmanager
def _files_of(asked: argparse.Namespace) -> Iterator[Files]:
    """The files to scan. When they are exhausted, reports how many were left out."""
    choice = Choice(getattr(asked, "include", ()), getattr(asked, "exclude", ()))
    is_measured = any(getattr(asked, it, None) for it in ("cluster", "resume"))
    is_measured |= getattr(asked, "jobs", 1) > 1 or getattr(asked, "follow", False)
    named = getattr(asked, "files_from", None)
    paths = [*asked.paths, *(names_from(named, asked.null) if named else ())]
    files = Files(paths, getattr(asked, "recursive", True), choice, is_measured)
    yield files
    if getattr(asked, "quiet", False):
        return
    if files.left_out:
        count = f"{files.left_out} folder{'s' * (files.left_out > 1)}"
        print(f"storklocker: {count} left unread by --no-recursive", file=sys.stderr)
    if choice.left_out:
        print(
            f"storklocker: {choice.left_out} files and folders left out by --include and --exclude",
            file=sys.stderr,
        )


def _scan(asked: argparse.Namespace) -> int:
    if not (asked.paths or asked.files_from):
        asked.configured.error("scan takes paths, or --files-from with a file")
    if asked.follow and (asked.format != "ndjson" or asked.jobs > 1 or asked.cluster):
        asked.configured.error("--follow needs --format ndjson, and one process")
    allow = None if asked.allow is None else union_of(asked.allow)
    asked.fail_on = asked.fail_on or (UNKNOWN if allow is None else REFUSED)
    told = Summary(asked.fail_on, asked.guarded)
    with_sha256 = asked.format in ("json", "ndjson") or bool(asked.baseline)
    own = table_of(asked.danger) if asked.danger else ""
    is_unrecognized = asked.fail_on == UNRECOGNIZED
    question = Question(allow, with_sha256, dangers=own, with_unrecognized=is_unrecognized)
    errors = None if asked.quiet else sys.stderr
    with _files_of(asked) as files:
        means = Means(asked.jobs, asked.cluster or "", asked.resume or "", asked.rate)
        chosen: Iterable[File] = files
        if asked.follow:
            chosen = grown(files)
        reports = scan(chosen, question, means, errors)
        if asked.baseline:
            from .baseline import Baseline  # few scans have one

            reports = Baseline(asked.baseline).marked(reports)
        for line in showing.lines(asked, told.heard(reports), told):
            if not asked.quiet:
                print(line, flush=asked.format == "ndjson")
    told.is_unread |= files.left_out > 0
    if errors is not None and errors.isatty() and not showing.is_on_terminal(asked):
        print(shown(told.line(showing.more(asked)), 2000), file=errors)
    return status_of(told)


def _check(asked: argparse.Namespace) -> int:
    question = Question(union_of(asked.allow), as_program=True)
    return _answered(asked, question, Checking(asked.guarded))


def _imports(asked: argparse.Namespace) -> int:
    return _answered(asked, Question(as_program=True), Importing())


def _answered(
    asked: argparse.Namespace, question: Question, answer: Union[Checking, Importing]
) -> int:
    for path in asked.paths:
        with _files_of(argparse.Namespace(paths=[path])) as files:
            for line in answer.lines(scan(files, question), path, len(asked.paths) > 1):
                print(line)
    return answer.status


def _learn(asked: argparse.Namespace) -> int:
    if not (asked.paths or asked.from_log):
        raise OSError("learn takes files, or --from-log with a file")
    from .learning import Learned  # it needs modules that take a sixth of a start

    learned = Learned()
    for path in asked.from_log:
        learned.add_log(path)
    if asked.paths:
        with _files_of(asked) as files:
            question = Question(members=learned.members)
            learned.add(scan(files, question, progress=sys.stderr))
    for line in learned.lines():
        print(line)
    for report in learned.left_out:
        print(f"# left out: {shown(report.path)}: {shown(report.why)}")
    is_wild = GETATTR in learned.pairs and not learned.enums
    found = import_findings(it for it in learned.pairs if it != GETATTR or is_wild)
    for line in _lint_lines([finding for finding in found if finding.severity != UNKNOWN]):
        print(f"# {line}")
    if is_wild:
        print(f"# {_GETATTR}")
    is_whole = not learned.left_out and not (asked.paths and files.left_out)
    return YES if is_whole else FAULT


GETATTR = ("builtins", "getattr")
_GETATTR = (
    "builtins.getattr is what enum members of Python 3.11.0 to 3.11.3, and bound methods, are"
    " pickled with: storklocker.classes.ByValue, a base class for enums, avoids it, and"
    " storklocker.substitutes.getattr permits some of it."
)
_SUBSTITUTED = """\
A Guard loads some of these names through substitutes, which judge what a pickle does with them.
Under this list a pickle may crash other readers, or run code in them, even after pktool check."""


def _lint(asked: argparse.Namespace) -> int:
    allow = list_of(asked.list)
    found = list_findings(allow)
    if has_substitutes(allow):
        print(_SUBSTITUTED)
    for line in _lint_lines(found):
        print(line)
    if GETATTR in allow and not (allow.meant and GETATTR in allow.meant.substitutes):
        print(_GETATTR)
    severities = {finding.severity for finding in found}
    if DANGER in severities:
        return NO
    return UNJUDGED if asked.fail_on == UNKNOWN and UNKNOWN in severities else YES


def _lint_lines(found: Sequence[Finding]) -> Iterator[str]:
    counts = Counter(finding.severity for finding in found)
    for finding in found:
        example = f" Example: {finding.example}" if finding.example else ""
        yield f"{formats.told(finding)}{example}"
    yield f"{counts[DANGER]} dangerous, {counts[WARNING]} warnings, {counts[UNKNOWN]} not judged"


if __name__ == "__main__":
    sys.exit(main())

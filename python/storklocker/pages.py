"""Prints the manual page of the command `storklocker`, or a shell's completions for it, made from
its parsers:

    python -m storklocker.pages man | man -l -
    python -m storklocker.pages bash >~/.local/share/bash-completion/completions/storklocker
    python -m storklocker.pages zsh >FOLDER/_storklocker        # a folder of $fpath
    python -m storklocker.pages fish >~/.config/fish/completions/storklocker.fish
"""

from __future__ import annotations

import argparse
import re
import sys
import textwrap
from typing import Iterable, Iterator, List, NamedTuple, Sequence

from ._storklocker import version as __version__
from .scanning.command import command_parser


EXAMPLES = (
    "storklocker scan models/ --allow list.toml --jobs 4",
    "storklocker learn trusted/ > list.toml",
    "storklocker lint list.toml",
    "storklocker check --allow @numpy,@pandas frame.pickle",
    "storklocker explain stranger.pickle",
    "storklocker dis stranger.pickle",
)


class Command(NamedTuple):
    """A command: its words, what it does, its parser, and the commands below it."""

    words: str
    what: str
    parser: argparse.ArgumentParser
    below: List[Command]


class Option(NamedTuple):
    """An option or an argument. `flags` is empty for an argument, `value` for a switch."""

    flags: List[str]
    value: str
    choices: List[str]
    is_repeated: bool
    is_needed: bool
    what: str


def command_of(parser: argparse.ArgumentParser) -> Command:
    """The command of a parser, with all below it."""
    return _command(parser.prog, parser.description or "", parser)


def _command(words: str, what: str, parser: argparse.ArgumentParser) -> Command:
    below = []
    for action in parser._actions:
        if isinstance(action, argparse._SubParsersAction):
            helps = {it.dest: it.help or "" for it in action._choices_actions}
            for name, its in action.choices.items():
                below.append(_command(f"{words} {name}", helps.get(name, ""), its))
    return Command(words, what, parser, below)


def all_of(command: Command) -> Iterator[Command]:
    """The command and all below it, in order."""
    yield command
    for it in command.below:
        yield from all_of(it)


def options_of(command: Command) -> List[Option]:
    """What a command takes, without the commands below it."""
    return [
        _option(action)
        for action in command.parser._actions
        if not isinstance(action, argparse._SubParsersAction)
        and action.help != argparse.SUPPRESS
    ]


def _option(action: argparse.Action) -> Option:
    choices = [str(it) for it in action.choices or ()]
    name = action.metavar if isinstance(action.metavar, str) else action.dest.upper()
    value = "" if action.nargs == 0 else "|".join(choices) or name
    return Option(
        list(action.option_strings),
        value,
        choices,
        action.nargs in ("+", "*"),
        action.required and action.nargs not in ("?", "*"),
        (action.help or "").replace("%%", "%"),
    )


def _name(command: Command) -> str:
    """The last word of a command."""
    return command.words.split()[-1]


def _flags(option: Option) -> str:
    """An option as a synopsis shows it."""
    front = f"{option.flags[-1]} {option.value}".strip() if option.flags else option.value
    shown = front + "..." * option.is_repeated
    return shown if option.is_needed else f"[{shown}]"


def manual(command: Command) -> Iterator[str]:
    """The lines of the manual page, for `man`."""
    yield f'.TH STORKLOCKER 1 "" "storklocker {__version__}"'
    yield from (".SH NAME", _roff(f"{command.words} - {_phrase(command.what)}"), ".SH SYNOPSIS")
    leaves = [it for it in all_of(command) if not it.below]
    for it in leaves:
        words = [_flags(option) for option in options_of(it) if "--help" not in option.flags]
        yield from (f".B {_roff(it.words)}", _roff(" ".join(words)), ".br")
    yield from (".SH DESCRIPTION", _roff(command.what), ".SH COMMANDS")
    for it in leaves:
        yield from (f".SS {_roff(it.words)}", _roff(f"{it.what[:1].upper()}{it.what[1:]}."))
        yield from _terms(options_of(it))
    yield ".SH OPTIONS"
    yield from _terms(options_of(command))
    yield ".SH EXIT STATUS"
    statuses = command.parser.epilog or ""
    for number, what in re.findall(r"(?m)^  (\d+) +(.*(?:\n    .*)*)$", statuses):
        yield from (".TP", f".B {number}", ".nf")
        yield from (_roff(line) for line in textwrap.dedent(f"       {what}").splitlines())
        yield ".fi"
    yield from (".SH EXAMPLES", ".nf", *map(_roff, EXAMPLES), ".fi")
    yield from (".SH SEE ALSO", ".BR pickle (3),", "the module pickletools of Python")


def _terms(options: Iterable[Option]) -> Iterator[str]:
    for it in options:
        value = f" {it.value}" if it.value and it.flags else it.value
        yield from (".TP", f".B {_roff(', '.join(it.flags) + value)}", _roff(it.what))


def _roff(text: str) -> str:
    """A text as roff has it. A line that began with a dot would be a request."""
    shown = text.replace("\\", "\\e").replace("-", "\\-")
    return f"\\&{shown}" if shown[:1] in (".", "'") else shown


def _phrase(text: str) -> str:
    return text[:1].lower() + text[1:].rstrip(".")


def bash(command: Command) -> Iterator[str]:
    """Completions for bash. Where there are no words, bash completes file names."""
    commands = list(all_of(command))
    yield "_storklocker() {"
    yield "    local word=${COMP_WORDS[COMP_CWORD]} before=${COMP_WORDS[COMP_CWORD-1]} words= at"
    yield f"    local path={command.words}"
    yield "    for ((at = 1; at < COMP_CWORD; at++)); do"
    yield '        case "$path ${COMP_WORDS[at]}" in'
    yield f"            {' | '.join(_quoted(it.words) for it in commands[1:])})"
    yield '                path="$path ${COMP_WORDS[at]}" ;;'
    yield "        esac"
    yield "    done"
    yield '    case "$path $before" in'
    for it in commands:
        for option in options_of(it):
            if option.flags and option.value:
                ways = " | ".join(_quoted(f"{it.words} {flag}") for flag in option.flags)
                yield f"        {ways}) words={_quoted(' '.join(option.choices))} ;;"
    yield '        *) case "$path" in'
    for it in commands:
        words = [_name(below) for below in it.below]
        flags = [flag for option in options_of(it) for flag in option.flags]
        yield f"            {_quoted(it.words)})"
        yield f"                words={_quoted(' '.join(words))}"
        yield f"                [[ $word != -* ]] || words={_quoted(' '.join(flags))} ;;"
    yield from ("        esac ;;", "    esac")
    yield "    mapfile -t COMPREPLY < <(compgen -W \"$words\" -- \"$word\")"
    yield from ("}", f"complete -o default -F _storklocker {command.words}")


def zsh(command: Command) -> Iterator[str]:
    """Completions for zsh, a function for each command."""
    yield f"#compdef {command.words}"
    for it in all_of(command):
        yield from (f"_{it.words.replace(' ', '_')}() {{", "    local line state")
        words = [
            _zsh_option(option, flag) for option in options_of(it) for flag in option.flags or [""]
        ]
        if it.below:
            names = [f"{_name(below)}\\:{_quoted(_zsh(below.what))}" for below in it.below]
            words += [f"1:command:(({' '.join(names)}))", "*::word:->words"]
        yield f"    _arguments -C {' '.join(_quoted(word) for word in words)}"
        if it.below:
            yield "    case $line[1] in"
            for below in it.below:
                yield f"        {_name(below)}) _{below.words.replace(' ', '_')} ;;"
            yield "    esac"
        yield "}"
    yield f'_{command.words} "$@"'


def _zsh_option(option: Option, flag: str) -> str:
    values = f"({' '.join(option.choices)})" if option.choices else "_files"
    value = f":{_zsh(option.value)}:{values}" if option.value else ""
    if flag:
        return f"{flag}[{_zsh(option.what)}]{value}"
    return f"*{value}" if option.is_repeated else value


def _zsh(text: str) -> str:
    return "".join("\\" + it if it in "[]:\\" else it for it in text)


def fish(command: Command) -> Iterator[str]:
    """Completions for fish."""
    front = f"complete -c {command.words}"
    for it in all_of(command):
        path = it.words.split()[1:]
        names = " ".join(_name(below) for below in it.below)
        seen = [f"__fish_seen_subcommand_from {word}" for word in path]
        unseen = [f"not __fish_seen_subcommand_from {names}"] if names else []
        where = f" -n {_quoted('; and '.join(seen + unseen))}" if seen + unseen else ""
        for below in it.below:
            yield f"{front}{where} -f -a {_name(below)} -d {_quoted(below.what)}"
        for option in options_of(it):
            if not option.flags:
                continue
            words = [
                f"-l {flag[2:]}" if flag.startswith("--") else f"-s {flag[1:]}"
                for flag in option.flags
            ]
            value = " -r" if option.value else ""
            value += f" -f -a {_quoted(' '.join(option.choices))}" if option.choices else ""
            yield f"{front}{where} {' '.join(words)}{value} -d {_quoted(option.what)}"


def _quoted(text: str) -> str:
    """A word for a shell."""
    return "'" + text.replace("'", "'\\''") + "'"


PAGES = {"man": manual, "bash": bash, "zsh": zsh, "fish": fish}


def main(words: Sequence[str]) -> int:
    """Prints a page, and returns the status."""
    parser = argparse.ArgumentParser(
        "python -m storklocker.pages",
        description=__doc__,
        formatter_class=argparse.RawDescriptionHelpFormatter,
    )
    parser.add_argument("page", choices=list(PAGES))
    for line in PAGES[parser.parse_args(words).page](command_of(command_parser())):
        print(line)
    return 0


if __name__ == "__main__":
    sys.exit(main(sys.argv[1:]))

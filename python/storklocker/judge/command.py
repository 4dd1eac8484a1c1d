"""The command `storklocker judge`."""

from __future__ import annotations

import argparse
import json
import os
import platform
from typing import TYPE_CHECKING, Any, Dict, Iterator, List, Tuple

if TYPE_CHECKING:
    from .judged import Judged

NOTHING, SOMETHING = 0, 1
_DESCRIPTION = """\
Calls the names of a module as a hostile pickle may, uses the results, and reports what they did:
ran code or commands, used files, sockets, imports or other pickles, called their arguments, changed
existing objects, kept something in a module, took too long or too much memory, or ended the
process. It imports the module and RUNS ITS CODE, on purpose: in processes of its own, under limits,
with an audit hook that refuses harmful events, and without a network where the system permits that.
This is no sandbox: compiled code gets around it. Use it on your own modules, as an unprivileged
user.

It reports what it tried. A name without a finding may still do harm.
"""
_STATUSES = """exit status:
  0  no name did any of that
  1  a name did some of it
  2  a module can't be imported, has no such name, or this system can't fork
"""


def add_command(commands: "argparse._SubParsersAction[argparse.ArgumentParser]") -> None:
    """Adds the command to a parser."""
    it = commands.add_parser(
        "judge",
        help="calls the names of a module as a hostile pickle may, and reports what they did",
        description=_DESCRIPTION,
        epilog=_STATUSES,
        formatter_class=argparse.RawDescriptionHelpFormatter,
    )
    it.add_argument("names", nargs="+", metavar="MODULE", help="a module, or module:name")
    it.add_argument("--recursive", action="store_true", help="also try the modules below it")
    it.add_argument("--methods", action="store_true", help="also try the methods of its classes")
    it.add_argument(
        "--format", choices=("text", "json"), default="text", help="the format of the report"
    )
    it.add_argument("--seconds", type=float, default=0.5, help="how long a call may take")
    it.set_defaults(run=_judge)


def _judge(asked: argparse.Namespace) -> int:
    if not hasattr(os, "fork"):
        raise OSError("this system can't fork, as judge does for each name")
    from . import judged  # no other command needs it

    judged.begin()
    names, found = _names(asked), []
    for pair in names:
        one = judged.judged(pair, asked.seconds)
        found.append(one)
        if asked.format == "text":
            print("\n".join(_lines(one)), flush=True)
    if asked.format == "json":
        print(json.dumps(_told(found), indent=1))
    else:
        print("\n".join(_end(found)))
    return SOMETHING if any(it.seen for it in found) else NOTHING


def _names(asked: argparse.Namespace) -> List[Tuple[str, str]]:
    from . import cases, judged  # no other command needs them

    names: List[Tuple[str, str]] = []
    for word in asked.names:
        module, _, name = word.partition(":")
        try:
            if name:
                cases.found(module, name)
            own = [(module, name)] if name else judged.names_in(
                module, asked.recursive, asked.methods)
            names += own
        except Exception as error:  # (whatever a module raises)
            raise OSError(f"{word}: {type(error).__name__}: {error}") from None
    if not names:
        raise OSError(f"{', '.join(asked.names)}: no class or function is defined there")
    return names


def _lines(one: Judged) -> Iterator[str]:
    told = "" if one.seen else ": nothing was seen"
    yield f"{one.name}, {one.kind}: {one.tried:,} pickles, {one.loaded:,} loaded{told}"
    yield from (f"  {it.what}  {it.how}  {it.detail}" for it in one.seen)


def _end(found: List[Judged]) -> Iterator[str]:
    how = _told(found)
    harmed = sum(bool(it.seen) for it in found)
    yield f"{len(found):,} names were tried, {harmed:,} of which did something."
    yield f"Tried, under Python {how['python']}: {how['calls']}; with {how['shapes']} values."
    yield f"Then, with the results: {how['uses']}. Sockets: {how['network']}."
    yield "Nothing else was tried."


def _told(found: List[Judged]) -> Dict[str, Any]:
    from . import cases, judged  # no other command needs them

    return {
        "python": platform.python_version(),
        "calls": "REDUCE, NEWOBJ, NEWOBJ_EX, OBJ, APPENDS, ADDITEMS, SETITEMS, BUILD",
        "shapes": len(list(judged.shapes_told())),
        "uses": cases.USES,
        "network": judged.network(),
        "names": [{**it._asdict(), "seen": [seen._asdict() for seen in it.seen]} for it in found],
    }

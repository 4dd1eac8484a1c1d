"""The commands `storklocker list`: lists as they are, what differs between two, and more names."""

from __future__ import annotations

import argparse
import re
import sys
from pathlib import Path
from typing import Dict, Iterable, Iterator, List, Tuple

from .. import _shipped as shipped
from .._limits import COSTS, costs_said
from .._lists import AllowList
from .._meant import EVERYTHING
from .._meant import of as meant_in
from .._writing import dotted, quoted, replace, row_of
from .dangers import danger_of
from .listed import LISTS, list_of, said_by, union_of
from .report import shown

Pair = Tuple[str, str]
SAME, DIFFERENT = 0, 1
ADDED, DANGEROUS = 0, 1

_NEW = "version = 2\n\n[imports]\n"
_IMPORTS = re.compile(r"(?m)^[ \t]*\[[ \t]*imports[ \t]*\][^\n]*\n")


def add_commands(commands: "argparse._SubParsersAction[argparse.ArgumentParser]") -> None:
    """Adds the commands to a parser."""
    what = "shows and compares lists, and adds names to one"
    within = commands.add_parser("list", help=what, description=f"{what.capitalize()}.")
    its = within.add_subparsers(required=True, metavar="COMMAND")
    what = "prints lists as one list file"
    show = its.add_parser("show", help=what, description=f"{what.capitalize()}.")
    show.add_argument("lists", nargs="*", metavar="LIST", help=LISTS)
    show.set_defaults(run=_show)
    what = "shows how two lists differ; status 1 if they do"
    diff = its.add_parser("diff", help=what, description=f"{what.capitalize()}.")
    diff.add_argument("old", metavar="OLD", help=LISTS)
    diff.add_argument("new", metavar="NEW", help=LISTS)
    diff.set_defaults(run=_diff)
    what = "adds names to a list file, and keeps its comments"
    add = its.add_parser("add", help=what, description=f"{what.capitalize()}.")
    add.add_argument("list", metavar="LIST", help="the list file; a new one if there is none")
    add.add_argument(
        "names", nargs="+", metavar="NAME", help="module.name, or module:name if the name has dots"
    )
    add.add_argument(
        "--dangerous", action="store_true", help="also add names that are known to be dangerous"
    )
    add.set_defaults(run=_add)


def _show(asked: argparse.Namespace) -> int:
    if not asked.lists:
        print("\n".join(shipped.words()))
        return SAME
    text = union_of(asked.lists).to_text()
    for word in (word for it in asked.lists if it.startswith("@") for word in it.split(",")):
        own = shipped.file_of(shipped.name_of(word)).read_text(encoding="utf-8")
        print(own.partition("version =")[0], end="")
    print(text, end="")
    return SAME


def _diff(asked: argparse.Namespace) -> int:
    lines = list(differences(list_of(asked.old), list_of(asked.new)))
    for line in lines:
        print(line)
    return DIFFERENT if lines else SAME


def differences(old: AllowList, new: AllowList) -> Iterator[str]:
    """The lines that say what a list has lost and what it has gained, with dangers."""
    before, after = dict.fromkeys(old), dict.fromkeys(new)
    for pair in sorted({**before, **after}):
        if pair not in after:
            yield f"- {_shown(pair)}"
        elif pair not in before:
            yield f"+ {_shown(pair)}  {danger_of(pair)}".rstrip()
    yield from _rows("limit", _limits_of(old), _limits_of(new))
    yield from _rows("rule", _rules_of(old), _rules_of(new))
    yield from _rows("substitute", said_by(meant_in(old)), said_by(meant_in(new)))


def _shown(pair: Pair) -> str:
    return shown(dotted(pair), 512)


def _rows(what: str, old: Dict[str, str], new: Dict[str, str]) -> Iterator[str]:
    for key in sorted({**old, **new}):
        if old.get(key) != new.get(key):
            yield from (f"- {what} {key} = {shown(old[key])}" for _ in range(key in old))
            yield from (f"+ {what} {key} = {shown(new[key])}" for _ in range(key in new))


def _limits_of(allow: AllowList) -> Dict[str, str]:
    if allow.limits is None:
        return {}
    held = dict(zip(allow.limits._fields, allow.limits[: -len(COSTS)]), **costs_said(allow.limits))
    return {name: str(value) for name, value in held.items()}


def _rules_of(allow: AllowList) -> Dict[str, str]:
    return {} if allow.build is None else {"build": allow.build}


def _add(asked: argparse.Namespace) -> int:
    if asked.list.startswith("@"):
        raise OSError(f"{shown(asked.list)} isn't a file: add names to a list of your own")
    path, pairs, refused = Path(asked.list), [], False
    for name in asked.names:
        pair = pair_of(name)
        why = danger_of(pair)
        if why and not asked.dangerous:
            print(f"storklocker: {shown(name)} isn't added. {why} (--dangerous)", file=sys.stderr)
            refused = True
        else:
            pairs.append(pair)
    if pairs:
        text = path.read_bytes().decode("utf-8", "surrogateescape") if path.exists() else _NEW
        try:
            made = with_names(text, pairs)
        except ValueError as error:
            raise OSError(f"{asked.list}: {error}") from None
        if made != text:
            replace(path, made)
    return DANGEROUS if refused else ADDED


def pair_of(name: str) -> Pair:
    """The pair of a dotted name. Raises OSError if it is none."""
    module, _, own = name.partition(":") if ":" in name else name.rpartition(".")
    if not module or not own:
        raise OSError(f"{name!r} isn't a name: write module.name, or module:name")
    return (module, own)


def with_names(text: str, pairs: List[Pair]) -> str:
    """A list file with more names, in which all else stays. Raises ValueError if the names must be
    added by hand.
    """
    before = AllowList.from_text(text.encode("utf-8", "surrogateescape"))
    added = [pair for pair in dict.fromkeys(pairs) if pair not in before]
    made = text
    for module, name in sorted(added, reverse=True):
        made = _with(made, module, name)
    meant = [pair for pair in added if pair in EVERYTHING]
    if meant:
        made = _meaning(made, meant)
    wanted = before | AllowList(added, dangerous=meant)
    try:
        is_right = AllowList.from_text(made.encode("utf-8", "surrogateescape")) == wanted
    except ValueError:
        is_right = False
    if not is_right:
        raise ValueError("its layout is unknown: add the names by hand")
    return made


def _with(text: str, module: str, name: str) -> str:
    """The text with a name more: at the front of the module's row, or in a new one."""
    header = _IMPORTS.search(text)
    if header is None:
        raise ValueError("it has no line [imports]: add the names by hand")
    keys = "|".join(re.escape(key) for key in (quoted(module), f"'{module}'", module))
    row = re.compile(rf"(?m)^[ \t]*(?:{keys})[ \t]*=[ \t]*\[([ \t]*\n)?").search(text, header.end())
    if row is None:
        line = "".join(f"{line}\n" for line in row_of(module, [name]))
        return text[: header.end()] + line + text[header.end() :]
    more = f"    {quoted(name)},\n" if row[1] else f"{quoted(name)}, "
    return text[: row.end()] + more + text[row.end() :]


def _meaning(text: str, pairs: List[Pair]) -> str:
    """The text in which these names are said to be meant."""
    rows = "".join(f'"{dotted(pair)}" = "dangerous"\n' for pair in pairs)
    header = re.search(r"(?m)^\s*\[\s*substitutes\s*\].*\n", text)
    if header is None:
        return text.rstrip("\n") + f"\n\n[substitutes]\n{rows}"
    return text[: header.end()] + rows + text[header.end() :]

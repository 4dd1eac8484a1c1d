"""Writes list files."""

from __future__ import annotations

import contextlib
import os
import re
import stat
from pathlib import Path
from typing import TYPE_CHECKING, Any, Dict, Iterator, List, Union

from ._limits import COSTS, costs_said

if TYPE_CHECKING:
    from ._lists import AllowList

_LONGEST = 100
_BARE = re.compile(r"[A-Za-z0-9_-]+")


def text_of(allow: AllowList) -> str:
    """The list file of a list. Raises ValueError if no file can say what the list says."""
    text = "".join(f"{line}\n" for line in _lines(allow))
    if type(allow).from_text(text) != allow:
        raise ValueError("no list file can express this list: rename its classes")
    return text


def _lines(allow: AllowList) -> Iterator[str]:
    yield from ("version = 2", "", "[imports]")
    modules: Dict[str, List[str]] = {}
    for module, name in allow:
        modules.setdefault(module, []).append(name)
    for module, names in modules.items():
        yield from row_of(module, names)
    if allow.limits is not None:
        yield from ("", "[limits]")
        *numbers, large = allow.limits[: -len(COSTS)]
        yield from (f"{limit} = {it}" for limit, it in zip(allow.limits._fields, numbers))
        yield from ["large = true"] if large else []
        yield from (f"{limit} = {it}" for limit, it in costs_said(allow.limits).items())
    if allow.build is not None:
        yield from ("", "[rules]", f'build = "{allow.build}"')
    if allow.meant is not None:
        from ._sections import said_of  # few lists have substitutes

        yield from ("", "[substitutes]")
        said = {pair: "dangerous" for pair in allow.meant.dangerous}
        said.update((pair, said_of(pair, it)) for pair, it in allow.meant.substitutes.items())
        for pair, what in sorted(said.items()):
            yield f'"{dotted(pair)}" = "{what}"'


def row_of(module: str, names: List[str]) -> Iterator[str]:
    """The lines of a module in a list file."""
    key = module if _BARE.fullmatch(module) else quoted(module)
    words = [quoted(name) for name in names]
    line = f"{key} = [{', '.join(words)}]"
    if len(line) <= _LONGEST:
        yield line
        return
    yield f"{key} = ["
    yield from (f"    {word}," for word in words)
    yield "]"


def dotted(pair: Any) -> str:
    """A pair as a section `[substitutes]` names it."""
    module, name = pair
    return f"{module}:{name}" if "." in name else f"{module}.{name}"


def quoted(text: str) -> str:
    """A TOML string. Characters that aren't printable are escaped."""
    return '"' + "".join(map(_quoted_character, text)) + '"'


def _quoted_character(character: str) -> str:
    if character in '"\\':
        return "\\" + character
    if character.isprintable():
        return character
    number = ord(character)
    return f"\\u{number:04x}" if number < 0x10000 else f"\\U{number:08x}"


def replace(file: Union[str, os.PathLike[str]], text: str) -> None:
    """Writes a text file, whole or not at all. An existing file keeps its mode, and a link its
    place.
    """
    path = Path(os.path.realpath(file))
    made = path.with_name(f".{path.name[:200]}.{os.getpid()}-{os.urandom(4).hex()}")
    found = os.stat(path) if path.exists() else None
    if found is not None and not stat.S_ISREG(found.st_mode):
        raise OSError(f"{os.fspath(path)!r} isn't a regular file")
    descriptor = os.open(made, os.O_WRONLY | os.O_CREAT | os.O_EXCL, 0o666)
    try:
        with open(descriptor, "w", encoding="utf-8", newline="\n") as opened:
            if found is not None:
                os.fchmod(descriptor, stat.S_IMODE(found.st_mode))
            opened.write(text)
            opened.flush()
            os.fsync(descriptor)
        os.replace(made, path)
    except BaseException:
        with contextlib.suppress(FileNotFoundError):
            os.unlink(made)
        raise

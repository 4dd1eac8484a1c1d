"""Options from `[tool.storklocker]` of a project's pyproject.toml.

The file is that of the current folder, or of the nearest one above it that has the table: never one
of a folder that is only scanned, whose author would choose what counts. It must belong to the user
who runs the scan, or to root: others may write in folders above, such as /tmp.
"""

from __future__ import annotations

import argparse
import importlib
import os
import re
import sys
from pathlib import Path
from typing import Any, Dict, Optional, Tuple

from .file import is_url
from .report import shown

_FILE, _TABLE = "pyproject.toml", "[tool.storklocker]"
_PATHS = frozenset(("allow", "baseline", "danger"))
"""Options whose values are paths, counted from the folder of the file."""
_NEVER = frozenset(
    "help no-config isolated files-from null recursive cluster resume".split()
)
"""What only the command line says: what is scanned, and what reaches beyond a report."""
_LARGEST = 1 << 24
_QUOTE = "[\"']?"
_HEADER = re.compile(rf"\[[ \t]*{_QUOTE}(\w*){_QUOTE}[ \t]*(?:\.[ \t]*{_QUOTE}(\w*))?")
_KEY = re.compile(rf"{_QUOTE}(\w*){_QUOTE}[ \t]*(?:\.[ \t]*{_QUOTE}(\w*))?")
"""How a table and a key begin, for a Python that reads no TOML."""


def configure(parser: argparse.ArgumentParser) -> str:
    """Sets the defaults of a parser. Returns what was taken from which file; empty for nothing.
    Raises OSError with the file and the key of a fault.
    """
    found = _found()
    if found is None:
        return ""
    path, table = found
    options = {
        name[2:]: action
        for action in parser._actions
        for name in action.option_strings
        if name.startswith("--") and name[2:] not in _NEVER
    }
    for key, value in table.items():
        if key not in options:
            raise OSError(f"{path}: {_TABLE} has no {shown(key)}: there are {', '.join(options)}")
        try:
            parser.set_defaults(**{options[key].dest: _value(options[key], key, value, path)})
        except (ValueError, argparse.ArgumentTypeError) as error:
            raise OSError(f"{path}: {_TABLE} {key}: {error}") from None
    return f"{path}: {', '.join(table)}" if table else ""


def _value(action: argparse.Action, key: str, value: Any, path: Path) -> Any:
    """What an option gets. Raises ValueError for a value of another kind than it takes."""
    if action.nargs == 0:
        if not isinstance(value, bool):
            raise ValueError("expected true or false")
        return action.const if value else action.default
    if isinstance(action.default, list) or key == "allow":
        values = [value] if isinstance(value, str) else value
        if not isinstance(values, list) or not all(isinstance(it, str) for it in values):
            raise ValueError("expected a text or a list of texts")
        return [_place(it, path) for it in values] if key in _PATHS else list(values)
    if action.type is not None and type(value) is int:
        made: Any = action.type
        return made(str(value))
    if not isinstance(value, str) or action.type is not None:
        raise ValueError(f"expected a {'number' if action.type else 'text'}")
    if action.choices is not None and value not in action.choices:
        raise ValueError(f"expected one of {', '.join(action.choices)}")
    return _place(value, path) if key in _PATHS else value


def _place(word: str, path: Path) -> str:
    """A path of the file, as one of the current folder."""
    is_path = not (word.startswith("@") or is_url(word))
    return os.path.relpath(path.parent / word) if is_path else word


def _found() -> Optional[Tuple[Path, Dict[str, Any]]]:
    """The nearest file with the table, and the table."""
    here = Path.cwd()
    for folder in (here, *here.parents):
        path = folder / _FILE
        table = _table_of(path) if path.is_file() else None
        if table is not None:
            _require_own(path)
            return path, table
    return None


def _table_of(path: Path) -> Optional[Dict[str, Any]]:
    with path.open("rb") as opened:
        data = opened.read(_LARGEST)
    if b"storklocker" not in data:
        return None  # most files, which needn't even be right
    text = data.decode("utf-8", "replace")
    try:
        reader = importlib.import_module("tomllib" if sys.version_info >= (3, 11) else "tomli")
    except ImportError:
        if not _has_table(text):
            return None
        why = "needs Python 3.11, or the package tomli: --no-config ignores it"
        raise OSError(f"{path}: {_TABLE} {why}") from None
    try:
        table = reader.loads(text).get("tool", {}).get("storklocker")
    except (ValueError, AttributeError, RecursionError) as error:
        raise OSError(f"{path}: {shown(str(error))}") from None
    if table is not None and not isinstance(table, dict):
        raise OSError(f"{path}: {_TABLE} isn't a table")
    return table


def _has_table(text: str) -> bool:
    """Whether a line seems to begin the table, or to set a key of it."""
    inside: Tuple[str, ...] = ()
    for line in map(str.strip, text.splitlines()):
        found = _HEADER.match(line) or _KEY.match(line)
        names = tuple(it for it in found.groups() if it) if found else ()
        inside = names if line.startswith("[") else inside
        place = names if line.startswith("[") else (*inside, *names)
        if place[:2] == ("tool", "storklocker") or place == ("tool",) and "storklocker" in line:
            return True
    return False


def _require_own(path: Path) -> None:
    """Raises OSError for a file of another user."""
    if hasattr(os, "getuid") and path.stat().st_uid not in (os.getuid(), 0):
        raise OSError(f"{path} belongs to another user: --no-config ignores its {_TABLE}")

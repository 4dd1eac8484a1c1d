"""Values that SQL makes in a database of SQLite: those of views, of columns that are generated, and
of defaults that were added with a column.

SQLite itself reads them, from a copy in memory that it can't write. Nothing but SELECT is permitted
to a schema, and no function that reaches out of the database.
"""

from __future__ import annotations

import pathlib
import re
import sys
import tempfile
from typing import Any, Iterator, List, NamedTuple, Optional, Tuple

from .budget import LOOKED_AT, Budget, TooMuch
from .source import Source

_MADE = re.compile(r"\bVIEW\b|\bDEFAULT\b|\bGENERATED\b|\bAS\s*\(|/\*|--", re.IGNORECASE)
"""What the text of a schema has in which SQL makes values; or a comment, which may stand between
any two words.
"""
_LITERAL = re.compile(r"[xX]'((?:[0-9a-fA-F]{2}){4,})'")
_DENIED = frozenset(
    "load_extension readfile writefile edit fts3_tokenizer fts5 sqlite_dbpage".split()
)
_CHANGING = frozenset(
    "random randomblob sqlite_version sqlite_source_id sqlite_compileoption_get changes"
    " sqlite_compileoption_used total_changes last_insert_rowid".split()
)
"""Functions by which a value may be another one for another reader."""
_EVERY, _LARGEST = 100, 1 << 26
"""After so many instructions of SQLite the steps are counted; and the largest database of which a
copy is made.
"""
_MEMORY = 1 << 28
_LIMITS = {
    "LENGTH": 1 << 24,
    "ATTACHED": 0,
    "EXPR_DEPTH": 100,
    "COMPOUND_SELECT": 50,
    "VDBE_OP": 100_000,
    "WORKER_THREADS": 0,
    "LIKE_PATTERN_LENGTH": 1000,
}
"""What SQLite may take, by the name of its limit."""
_HARMLESS_FAULTS = ("no such", "not authorized to use function", "unknown tokenizer")
"""Faults that every reader meets which has no functions and modules of its own."""


class Made(NamedTuple):
    """A value: the table or view, and its bytes; or why values can't be read."""

    name: str
    data: bytes
    fault: str = ""


def made_values(source: Source, schema: List[str], budget: Budget) -> Iterator[Made]:
    """The values that SQL makes, by the texts of the schema."""
    for text in schema:
        for found in _LITERAL.finditer(text):
            yield Made("a literal", bytes.fromhex(found.group(1)))
    if not any(map(_MADE.search, schema)):
        return
    reader = _Reader(budget)
    try:
        fault = reader.open(source)
        if fault:
            yield Made("", b"", fault)
            return
        yield from reader.values()
    finally:
        reader.close()


class _Reader:
    def __init__(self, budget: Budget) -> None:
        self._budget, self._connection = budget, None  # type: Budget, Any
        self._folder: Any = None
        self._changing, self._is_over, self._every = "", False, _EVERY
        self._memory = _peak()

    def open(self, source: Source) -> str:
        """Opens a copy in memory. Returns why that isn't possible, if it isn't."""
        try:
            import sqlite3
        except ImportError as error:
            return f"SQL makes values in it, which this Python can't read: {error}"
        if source.size > _LARGEST:
            return f"SQL makes values in it, which are read up to {_LARGEST:,} bytes"
        data = source.read(0, 18) + b"\1\1" + source.read(20, source.size)  # (without a log)
        self._budget.spend(len(data) // LOOKED_AT)
        self._connection = made = self._connected(sqlite3, data)
        for words in ("query_only = ON", "trusted_schema = OFF", "temp_store = MEMORY"):
            made.execute(f"PRAGMA {words}")
        made.text_factory = bytes
        made.set_authorizer(self._may)
        made.set_progress_handler(self._tick, self._every)
        return ""

    def _connected(self, sqlite3: Any, data: bytes) -> Any:
        """A connection to a copy: in memory, or where Python can't do that, to a file that may not
        be written.
        """
        if hasattr(sqlite3.Connection, "deserialize"):
            made = sqlite3.connect(":memory:", isolation_level=None)
            made.deserialize(data)
        else:
            self._folder = tempfile.TemporaryDirectory()
            path = pathlib.Path(self._folder.name, "copy")
            path.write_bytes(data)
            uri = f"{path.as_uri()}?mode=ro&immutable=1"
            made = sqlite3.connect(uri, uri=True, isolation_level=None)
        for name, most in _LIMITS.items() if hasattr(made, "setlimit") else ():
            made.setlimit(getattr(sqlite3, f"SQLITE_LIMIT_{name}"), most)
        if not hasattr(made, "setlimit"):
            self._every = 1  # (a step makes at most what SQLite can make)
        return made

    def close(self) -> None:
        """Ends the connection, and deletes the copy."""
        if self._connection is not None:
            self._connection.close()
        if self._folder is not None:
            self._folder.cleanup()

    def _may(self, action: int, first: Optional[str], second: Optional[str], *_: Any) -> int:
        """What SQLite is permitted to do for a statement."""
        import sqlite3

        if action == sqlite3.SQLITE_FUNCTION:
            name = (second or "").lower()
            if name in _CHANGING:
                self._changing = name
            return sqlite3.SQLITE_DENY if name in _DENIED else sqlite3.SQLITE_OK
        permitted = (sqlite3.SQLITE_SELECT, sqlite3.SQLITE_READ, sqlite3.SQLITE_RECURSIVE)
        return sqlite3.SQLITE_OK if action in permitted else sqlite3.SQLITE_DENY

    def _tick(self) -> int:
        """Counts steps. Returns whether SQLite is to end."""
        try:
            self._budget.spend(max(4, self._every // 10))
            self._is_over |= _peak() - self._memory > _MEMORY
        except TooMuch:
            self._is_over = True
        return int(self._is_over)

    def values(self) -> Iterator[Made]:
        """The values of each view, and of each table in which SQL makes some."""
        import sqlite3

        try:
            names = self._names()
        except sqlite3.Error as error:
            yield Made("", b"", f"SQL makes values in it, which SQLite can't read: {error}")
            return
        for name in names:
            self._changing = ""
            try:
                yield from self._values_of(name)
            except sqlite3.Error as error:
                if self._is_over:
                    why = f"{name[:80]!r} takes too many steps: it wasn't read"
                    raise TooMuch(why) from None
                if not str(error).startswith(_HARMLESS_FAULTS):
                    yield Made(name, b"", f"SQLite can't read its {name[:80]!r}: {error}")
            if self._changing:
                why = f"the contents of its {name[:80]!r} depend on {self._changing}()"
                yield Made(name, b"", f"{why}: readers differ")

    def _names(self) -> List[str]:
        rows = self._connection.execute("SELECT type, name, sql FROM sqlite_master").fetchall()
        texts = [tuple((it or b"").decode("utf-8", "replace") for it in row) for row in rows]
        return [
            name
            for kind, name, text in texts
            if kind == "view" or kind == "table" and _MADE.search(text) and not _is_virtual(text)
        ]

    def _values_of(self, name: str) -> Iterator[Made]:
        quoted = name.replace('"', '""')
        rows: Iterator[Tuple[Any, ...]] = self._connection.execute(f'SELECT * FROM "{quoted}"')
        for row in rows:
            self._budget.spend(len(row))
            yield from (Made(name, it) for it in row if isinstance(it, bytes))


def _is_virtual(text: str) -> bool:
    return re.match(r"\s*CREATE\s+VIRTUAL\b", text, re.IGNORECASE) is not None


def _peak() -> int:
    """The most memory that this process has had, in bytes; 0 where that isn't known."""
    try:
        import resource
    except ImportError:
        return 0
    unit = 1 if sys.platform == "darwin" else 1024
    return resource.getrusage(resource.RUSAGE_SELF).ru_maxrss * unit

"""What is known of names: the one reader of the files beside it, and what may stand in them.

A file has the names of a library, sorted, a row for each. A row is a name and its fields, two
spaces apart, and may go on in indented lines. `module.*` speaks of all names of a module and of
those below it that no other row has. Python's own library is in `python.txt`.

    does        what calling it with a stranger's arguments does: a word of `words.txt`
    by          how that was judged: run, by `storklocker judge`, or by the tests if it has an
                example; read, in its source; derived, of a class whose methods are all those of
                built-in classes. Of a row without it nobody has judged a call by itself: a guard
                judges it by a substitute, by the rule of its package, or by its kind
    is          what it is: class, enum, exception, function, value, module
    same        it has the names of this module, or is another name of this object
    answers     text, where it may answer one; member, where that is shared by all who ask
    state       what BUILD does to its objects under `pickle`: attributes, sets them; called, runs
                code of the class; refused, also of members of enums, which all share
    versions    those of its library that have it, where not all do that it was looked for in
    substitute  the module of the package that judges its arguments; `any` of a package of which
                more names than those that have rows are loaded so
    before      the first Python that needs no such judge
    permits     everything; or values, of modules that make functions and classes of what a pickle
                holds
    lists       the ready-made lists that have it
    unlisted    why none has it, though libraries write it
    members     the enums of which a list gives members through it
    for         what it is needed for, behind `It`
    example     an expression that does harm through it, tried by the tests
"""

import re
import textwrap
from _compat_pickle import REVERSE_IMPORT_MAPPING, REVERSE_NAME_MAPPING
from pathlib import Path
from typing import Container, Dict, Iterator, List, NamedTuple, Set, Tuple

HERE = Path(__file__).resolve().parent
PYTHON = "python"
"""The library whose names have no file of their own, and its file."""
WORDS = {
    "by": ("run", "read", "derived"),
    "is": ("class", "enum", "exception", "function", "value", "module"),
    "answers": ("text", "member"),
    "state": ("attributes", "called", "refused"),
    "permits": ("everything", "values"),
}
"""The fields that are a word of few, and these."""
_WIDTH, _INDENT = 100, "    "


class Row(NamedTuple):
    """What is known of a name. A field is empty where that isn't known."""

    name: str
    does: str = ""
    by: str = ""
    kind: str = ""
    same: str = ""
    answers: str = ""
    state: str = ""
    versions: str = ""
    substitute: str = ""
    before: str = ""
    permits: str = ""
    lists: str = ""
    unlisted: str = ""
    members: str = ""
    purpose: str = ""
    example: str = ""

    @property
    def pair(self) -> Tuple[str, str]:
        """The module and the name."""
        module, _, name = self.name.rpartition(".")
        return (module, name)

    @property
    def spellings(self) -> Set[Tuple[str, str]]:
        """The pair, and as protocols 0 to 2 write it: by the tables that CPython has for that."""
        module, name = self.pair
        old = REVERSE_NAME_MAPPING.get(self.pair)
        return {self.pair, old or (REVERSE_IMPORT_MAPPING.get(module, module), name)}


_CALLED = {"kind": "is", "purpose": "for"}
"""The fields that are called by a word that Python keeps."""
KEYS = {_CALLED.get(field, field): field for field in Row._fields[1:]}
_FIELD = re.compile(rf"({'|'.join(KEYS)})=(.*)")


class Word(NamedTuple):
    """What a call does, in a word."""

    severity: str
    """danger, warning or harmless."""
    why: str
    """The sentence that reports say."""


def words(folder: Path = HERE) -> Dict[str, Word]:
    """The words of `does`, from the worst to the least."""
    found = {}
    for line in _lines(folder / "words.txt"):
        word, severity, why = (*line.split("  "), "")[:3]
        found[word] = Word(severity, why)
    return found


def _lines(path: Path) -> Iterator[str]:
    lines = path.read_text(encoding="utf-8").splitlines()
    return (line for line in lines if line and not line.startswith("#"))


def rows(folder: Path = HERE) -> Dict[str, Row]:
    """Every row, by its name. Raises ValueError for a fault."""
    known, found, libraries = words(folder), {}, {path.stem for path in files(folder)}
    for path in files(folder):
        before = ""
        for row in read(path):
            fault = _fault_of(row, known, before)
            if library_of(row.name, libraries) != path.stem:
                fault = f"its file isn't {path.name}"
            if fault:
                raise ValueError(f"{path.name}: {row.name}: {fault}")
            found[row.name] = row
            before = row.name
    return found


def files(folder: Path = HERE) -> List[Path]:
    """The files of libraries."""
    others = ("words.txt", "lists.txt")
    return sorted(path for path in folder.glob("*.txt") if path.name not in others)


def read(path: Path) -> Iterator[Row]:
    """The rows of a file as they stand there."""
    whole: List[str] = []
    for line in (*_lines(path), ""):
        if line.startswith(_INDENT) and whole:
            glue = "  " if _FIELD.match(line.strip()) else " "
            whole.append(glue + line.strip())
            continue
        if whole:
            yield _row_of("".join(whole))
        whole = [line]


def _row_of(line: str) -> Row:
    name, *fields = line.split("  ")
    held: Dict[str, str] = {}
    for field in fields:
        found = _FIELD.fullmatch(field)
        if found is None or KEYS[found[1]] in held:
            raise ValueError(f"{name}: {field!r} is no field, or is there twice")
        held[KEYS[found[1]]] = found[2]
    return Row(name, **held)


def _fault_of(row: Row, known: Dict[str, Word], before: str) -> str:
    """What is wrong with a row behind another one; empty if nothing is."""
    if row.name <= before:
        return "it isn't sorted, or there twice"
    if row.does and row.does not in known:
        return f"does={row.does} is no word of words.txt"
    for key, those in WORDS.items():
        word = getattr(row, KEYS[key])
        if word and word not in those:
            return f"{key}={word} is none of {', '.join(those)}"
    if row.does and known[row.does].severity == "harmless" and not row.by:
        return "nobody says how it was judged: by=.."
    if row.example and not row.does:
        return "its example does nothing"
    if row.lists.split(",") != sorted(row.lists.split(",")):
        return "its lists aren't sorted"
    return ""


def library_of(name: str, libraries: Container[str]) -> str:
    """The library of these, each of which has a file, that a name belongs to."""
    package = name.partition(".")[0]
    return package if package in libraries else PYTHON


def heads(folder: Path = HERE) -> Dict[str, str]:
    """What stands above the names of each ready-made list, by its name: comments."""
    text = (folder / "lists.txt").read_text(encoding="utf-8")
    sections = (it.partition("]\n") for it in text.split("\n[")[1:])
    return {name: "".join(f"# {line}\n" for line in body.strip("\n").splitlines())
            for name, _, body in sections}


def write_head(name: str, head: str, folder: Path = HERE) -> None:
    """Puts the head of a list in the place of the one that it has."""
    path = folder / "lists.txt"
    first = path.read_text(encoding="utf-8").partition("\n[")[0]
    bodies = ((it, "".join(line[2:] + "\n" for line in text.splitlines()))
              for it, text in {**heads(folder), name: head}.items())
    text = first + "".join(f"\n[{it}]\n{body}" for it, body in bodies)
    path.write_text(text, encoding="utf-8", newline="\n")


def text_of(row: Row) -> str:
    """The lines of a row."""
    values = ((key, getattr(row, field)) for key, field in KEYS.items())
    fields = [f"{key}={value}" for key, value in values if value]
    lines, line = [], row.name
    for field in fields:
        if len(line) + 2 + len(field) <= _WIDTH:
            line = f"{line}  {field}"
            continue
        lines.append(line)
        *whole, line = textwrap.wrap(
            field, _WIDTH, initial_indent=_INDENT, subsequent_indent=_INDENT,
            break_long_words=False, break_on_hyphens=False)
        lines += whole
    return "".join(f"{it}\n" for it in (*lines, line))


def write(changed: Dict[str, Row], folder: Path = HERE) -> None:
    """Puts rows into the files of their libraries, in place of those with their names."""
    libraries = {path.stem: path for path in files(folder)}
    for path in libraries.values():
        held = {row.name: row for row in read(path)}
        held.update((name, row) for name, row in changed.items()
                    if library_of(name, libraries) == path.stem)
        text = path.read_text(encoding="utf-8")
        head = "".join(f"{line}\n" for line in text.splitlines() if line.startswith("#"))
        body = "".join(text_of(held[name]) for name in sorted(held))
        path.write_text(head + body, encoding="utf-8", newline="\n")

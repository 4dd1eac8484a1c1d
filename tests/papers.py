"""The documents of the repository, for the checks of tests/documents.py."""

import re
from pathlib import Path
from typing import Iterator, List, NamedTuple, Tuple

ROOT = Path(__file__).resolve().parent.parent
# Folders that runs create.
MADE = {"out", "target", "__pycache__"}


class Document(NamedTuple):
    name: str
    text: str


class Fault(NamedTuple):
    document: str
    line: int
    what: str

    def __str__(self) -> str:
        return f"{self.document}:{self.line}: {self.what}"


def is_kept(path: Path) -> bool:
    """Whether this is a file of the repository, not the product of a run."""
    parts = path.relative_to(ROOT).parts
    is_left = any(part in MADE or part.startswith(".") and part != ".github" for part in parts)
    return path.is_file() and not is_left


FILES = sorted(path for path in ROOT.rglob("*") if is_kept(path))


def text_of(file: str) -> str:
    return (ROOT / file).read_text(encoding="utf-8")


def documents() -> List[Document]:
    """Every document of the repository."""
    names = (path.relative_to(ROOT).as_posix() for path in FILES if path.suffix == ".md")
    return [Document(name, text_of(name)) for name in names]


def prose_of(document: Document) -> str:
    """The text of a document with its code blocks blanked out."""
    blocks = re.compile(r"(?ms)^ *```.*?^ *```$")
    return blocks.sub(lambda block: "\n" * block[0].count("\n"), document.text)


def found_in(document: Document, pattern: str) -> Iterator[Tuple[int, "re.Match[str]"]]:
    """Where a pattern occurs in the prose of a document."""
    prose = prose_of(document)
    for match in re.finditer(pattern, prose):
        yield prose.count("\n", 0, match.start()) + 1, match

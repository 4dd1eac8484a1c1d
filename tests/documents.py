#!/usr/bin/env python3
"""Checks the documents: lines, links, the files and counts that they name, and their examples.

Every example runs: `console` blocks in a shell, `pycon` blocks in one session per document. Their
output must match the document. `python` blocks are parsed. Lines of scripts are checked too, and
that nothing is said twice, in words or in other numbers. The last line counts.
"""

import argparse
import re
import sys
from collections import defaultdict
from pathlib import Path
from typing import DefaultDict, Iterator, List, Set, Tuple

import figures
import specified
import worked
from papers import FILES, ROOT, Document, Fault, documents, found_in, prose_of, text_of

LONGEST_LINE = 100
MOST_WORDS = 13_000
MOST_CLICKS = 2
# A sentence of so many words stands in one document only.
LONG_SENTENCE = 9
# What docs/THEOREM.md says in words, shown.
SESSION = "examples/yes-and-no.txt"
# The documents that don't count: a reader looks things up in them.
NO_PAPERS = re.compile(r"docs/(THEOREM|DECISIONS)\.md|CHANGELOG\.md|LICEN[CS]E.*")


def long_lines_of_scripts() -> Iterator[Fault]:
    """Long lines of scripts, which have a name that ends in .py or begin with `#!`, and crates."""
    for path in FILES:
        front = path.read_bytes()[:2]
        if path.suffix in (".py", ".rt", ".antt") or front == b"#!":
            name = path.relative_to(ROOT).as_posix()
            yield from long_lines(Document(name, text_of(name)))


def long_lines(document: Document) -> Iterator[Fault]:
    for number, line in enumerate(document.text.splitlines(), 1):
        if len(line) > LONGEST_LINE:
            yield Fault(document.name, number, f"a line of {len(line)} characters")


def headings_of(path: Path) -> List[str]:
    """The headings of a document, as links refer to them."""
    lines = re.findall(r"(?m)^#+ (.*)$", path.read_text(encoding="utf-8"))
    return [re.sub(r"[^\w\- ]", "", line.lower()).replace(" ", "-") for line in lines]


def dead_links(document: Document) -> Iterator[Fault]:
    """Links to files or headings that don't exist."""
    here = ROOT / document.name
    for line, match in found_in(document, r"\]\(([^)\s]+)\)"):
        if re.match(r"[a-z]+:", match[1]):
            continue
        file, _, heading = match[1].partition("#")
        target = here.parent / file if file else here
        if not target.exists():
            yield Fault(document.name, line, f"{match[1]} leads nowhere")
        elif heading and heading not in headings_of(target):
            yield Fault(document.name, line, f"there is no heading {match[1]}")


def missing_files(document: Document) -> Iterator[Fault]:
    """Files that a document names, by their paths or the ends of these, and that don't exist."""
    for line, match in found_in(document, r"`([\w./-]+\.(?:antt|rt|py|edit|toml|pickle|stdout))`"):
        if not any(path.as_posix().endswith("/" + match[1]) for path in FILES):
            yield Fault(document.name, line, f"there is no file {match[1]}")


def wrong_versions(document: Document) -> Iterator[Fault]:
    """Versions of the project that differ from the file VERSION."""
    version = text_of("VERSION").strip()
    for line, match in found_in(document, r"\b0\.\d+\.\d+\b(?:\.dev\d+)?"):
        if document.name != "CHANGELOG.md" and match[0] != version:
            yield Fault(document.name, line, f"version {match[0]}, but the project's is {version}")


def too_many_words(found: List[Document]) -> Iterator[Fault]:
    """More words than a reader reads to the end, as `wc -w` counts them."""
    texts = [document.text for document in found if not NO_PAPERS.fullmatch(document.name)]
    words = sum(len(text.split()) for text in texts)
    print(f"{words} words in {len(texts)} papers")
    if words > MOST_WORDS:
        yield Fault("all papers", 0, f"{words} words, but at most {MOST_WORDS} are allowed")


def links_of(document: Document) -> Set[Path]:
    """The files that a document links to."""
    here = (ROOT / document.name).parent
    found = {match[1].partition("#")[0] for _, match in found_in(document, r"\]\(([^)\s:]+)\)")}
    return {(here / file).resolve() for file in found if file}


def far_answers(found: List[Document]) -> Iterator[Fault]:
    """Questions of docs/README.md whose answer isn't where its path leads, click by click."""
    links = {ROOT / document.name: links_of(document) for document in found}
    index = next(document for document in found if document.name == "docs/README.md")
    for line, match in found_in(index, r"(?m)^\| [^|]+\? \| (.+) \|$"):
        steps = re.findall(r"\]\(([^)#]+)", match[1])
        place = ROOT / "README.md"
        for step in steps:
            target = (ROOT / "docs" / step).resolve()
            if target not in links[place]:
                yield Fault(index.name, line, f"{place.name} has no link to {step}")
            place = target
        if not 1 <= len(steps) <= MOST_CLICKS:
            yield Fault(index.name, line, f"{len(steps)} clicks")


def sentences_of(document: Document) -> Iterator[Tuple[int, str]]:
    """The sentences in the prose of a document, in lower case and without marks."""
    prose = re.sub(r"(?m)^\|.*$|^    .*$", "", prose_of(document))
    for match in re.finditer(r"(?s)\S.*?(?:[.:](?=\s)|\n\n|\Z)", prose):
        words = re.findall(r"[\w'-]+", match[0].lower())
        if len(words) >= LONG_SENTENCE:
            yield prose.count("\n", 0, match.start()) + 1, " ".join(words)


def sentences_twice(found: List[Document]) -> Iterator[Fault]:
    """Sentences that stand twice. The package's own page, which an index shows, may repeat some."""
    places: DefaultDict[str, List[Tuple[str, int]]] = defaultdict(list)
    for document in found:
        if document.name not in ("python/README.md", "CHANGELOG.md"):
            for line, sentence in sentences_of(document):
                places[sentence].append((document.name, line))
    for sentence, where in places.items():
        if len(where) > 1:
            name, line = where[1]
            yield Fault(name, line, f"{sentence!r} stands in {where[0][0]}:{where[0][1]} too")


CHECKS = [
    long_lines,
    dead_links,
    missing_files,
    figures.wrong_counts,
    figures.wrong_crates,
    wrong_versions,
]


def faults_of_all(found: List[Document]) -> Iterator[List[Fault]]:
    """What each check finds that looks at more than one document."""
    yield list(too_many_words(found))
    yield list(long_lines_of_scripts())
    yield list(far_answers(found))
    yield list(sentences_twice(found))
    yield list(specified.wrong_names())
    for check in figures.OF_ALL:
        yield list(check())


def main() -> int:
    parser = argparse.ArgumentParser(description=(__doc__ or "").splitlines()[0])
    parser.add_argument("--text", action="store_true", help="run no examples")
    asked = parser.parse_args()
    found = documents()
    faults = []
    passed = 0
    with_package = worked.has_package()
    skipped = not asked.text and not with_package
    if skipped:
        print("skipped: what needs the Python package, which is neither built nor installed")
    for wrong in faults_of_all(found):
        passed += not wrong
        faults += wrong
    for document in found:
        for check in CHECKS:
            wrong = list(check(document))
            passed += not wrong
            faults += wrong
        if not asked.text:
            ran, mistaken = worked.examples(document.text, with_package)
            passed += max(0, ran - len(mistaken))
            faults += [Fault(document.name, line, what) for line, what in mistaken]
    if with_package and not asked.text:
        mistaken = worked.faults_of_session(text_of(SESSION))
        passed += not mistaken
        faults += [Fault(SESSION, line, what) for line, what in mistaken]
    for fault in faults:
        print(f"failed: {fault}")
    print(f"{passed} passed, {len(faults)} failed, {int(skipped)} skipped")
    return 1 if faults else 0


if __name__ == "__main__":
    sys.exit(main())

"""What the documents say in numbers, lists and pictures, compared with what it is taken from."""

import importlib.util
import pickletools
import re
import subprocess
from typing import Callable, Dict, Iterator, List, NamedTuple, Set

import worked
from papers import FILES, ROOT, Document, Fault, found_in, text_of


def lines_of(file: str, pattern: str) -> int:
    """How many lines of a file match a pattern."""
    return len(re.findall(pattern, text_of(file), re.MULTILINE))


def files_like(pattern: str) -> int:
    """How many files match a pattern."""
    return len(list(ROOT.glob(pattern)))


# What a document may count, and the actual counts.
COUNTS: Dict[str, Callable[[], int]] = {
    "opcodes": lambda: len(pickletools.opcodes),
    "reasons": lambda: lines_of("crates/pkops/src/refusal.rt", r"^    [A-Z]\w*(?:\(u\d+\))?,$"),
    "crates": lambda: lines_of("crates.txt", r"^\w.*:"),
    "recipes": lambda: files_like("examples/recipes/*.stdout"),
    "edits that must fail": lambda: files_like("crates/*/*/*.edit"),
    "wrong versions of the code": lambda: files_like("crates/*/*/*.edit"),
    "rows of the program": lambda: lines_of("examples/cases.tsv", r"^[^#\n]"),
}
WORDS = "one two three four five six seven eight nine ten eleven twelve".split()


def wrong_counts(document: Document) -> Iterator[Fault]:
    """Counts that differ from the repository's. `more than 100` is right if there are more."""
    number = "[0-9][0-9,]*|" + "|".join(WORDS)
    pattern = rf"(?i)\b(more\s+than\s+)?\b({number})\s+({'|'.join(COUNTS)})\b"
    for line, match in found_in(document, pattern):
        word = match[2].lower()
        told = WORDS.index(word) + 1 if word in WORDS else int(word.replace(",", ""))
        actual = COUNTS[re.sub(r"\s+", " ", match[3].lower())]()
        few = word in WORDS[:3]  # a part of them, as in "three reasons come last"
        if not few and (told > actual if match[1] else told != actual):
            yield Fault(document.name, line, f"{match[0]!r}, but there are {actual}")


def wrong_crates(document: Document) -> Iterator[Fault]:
    """Lists of ported crates that differ from the crates' own."""
    rows = re.findall(r"(?m)^(\w+).*?:(.*)$", text_of("crates.txt"))
    ported = {name for _, names in rows for name in names.split()} - {own for own, _ in rows}
    for line, match in found_in(document, r"ported crates((?:[\s,]+(?:and\s+)?`\w+`)+)"):
        told = set(re.findall(r"`(\w+)`", match[1]))
        if told != ported:
            yield Fault(document.name, line, f"ported crates: {sorted(told ^ ported)} are wrong")


def wrong_opcodes() -> Iterator[Fault]:
    """Rows of the table of opcodes that differ from CPython's."""
    name = "docs/opcodes.tsv"
    lines = text_of(name).splitlines()
    rows = {line.split("\t")[0]: tuple(line.split("\t")[1:4]) for line in lines[1:]}
    for opcode in pickletools.opcodes:
        kind = opcode.arg.name if opcode.arg else "none"
        wanted = (f"{ord(opcode.code):02x}", kind, str(opcode.proto))
        told = rows.pop(opcode.name, None)
        if told != wanted:
            yield Fault(name, 1, f"{opcode.name} is {wanted} in CPython, not {told}")
    for opcode_name in rows:
        yield Fault(name, 1, f"CPython has no opcode {opcode_name}")
    kinds = {line.split("\t")[2] for line in lines[1:]}
    laid = {line.split("\t")[0] for line in text_of("docs/arguments.tsv").splitlines()[1:]}
    for kind in sorted(kinds ^ laid):
        yield Fault("docs/arguments.tsv", 1, f"{kind} is in only one of the tables")


class Figure(NamedTuple):
    """A number of a document, and the file that decides it: a pattern for each."""

    document: str
    told: str
    source: str
    actual: str


GUARD, BUDGET = "python/storklocker/_guard.py", "python/storklocker/scanning/budget.py"
LIMITS, SCANNING = "crates/pkops/src/limits.rt", "docs/SCANNING.md"
CALLED = "python/storklocker/scanning/called.py"
FIGURES = [
    Figure("docs/PYTHON.md", r"max_bytes=(\d+ << \d+)", GUARD, r"(?m)^MAX_BYTES = (.+)$"),
    Figure("docs/PYTHON.md", r"loads pickles of (\d+ KiB)", GUARD, r"(?m)^ASYNC_FROM = (.+)$"),
    Figure(
        "docs/PYTHON.md", r"A check of (\d+ KiB)", "python/_storklocker.c", r"KEPT_BELOW (\d+)"
    ),
    Figure(
        "docs/PYTHON.md",
        r"from ([\d,]+) bytes on",
        "python/storklocker/_reading.py",
        r"(?m)^FIRST_BLOCK = (.+)$",
    ),
    Figure(SCANNING, r"more than (\w+) containers", BUDGET, r"(?m)^DEPTH = (.+)$"),
    Figure(SCANNING, r"([\d,]+) members", BUDGET, r"(?m)^MEMBERS = (.+)$"),
    Figure(SCANNING, r"(\d[\d,]*) pickles", BUDGET, r"(?m)^PICKLES = (.+)$"),
    Figure(SCANNING, r"([\d,]+) steps", BUDGET, r"(?m)^STEPS = (.+)$"),
    Figure(SCANNING, r"(\d+ MiB) unpacked", BUDGET, r"UNPACKED = (\d+ << \d+),"),
    Figure(SCANNING, r"more than (\d+ MiB)", CALLED, r"(?m)^LARGEST = (.+)$"),
    Figure(SCANNING, r"up to (\d+ MiB)", CALLED, r"(?m)^LARGEST = (.+)$"),
    Figure("docs/FORMATS.md", r"`counted`: [^|]+\| ([\d,]+)", LIMITS, r"  counted: ([\d_]+)"),
    Figure("docs/FORMATS.md", r"`passed`: [^|]+\| ([\d,]+)", LIMITS, r"  passed: ([\d_]+)"),
    Figure("docs/FORMATS.md", r"`stack`: [^|]+\| ([\d,]+)", LIMITS, r"  stack: ([\d_]+)"),
    Figure("docs/FORMATS.md", r"`memo` \| ([\d,]+)", LIMITS, r"  memo: ([\d_]+)"),
    Figure("docs/FORMATS.md", r"`numbers`: [^|]+\| ([\d,]+)", LIMITS, r"  numbers: ([\d_]+)"),
    Figure("docs/FORMATS.md", r"of JSON \| ([\d,]+)", LIMITS, r"  depth: ([\d_]+)"),
    Figure(
        "docs/FORMATS.md",
        r"([\d,]+) in Python and C",
        "python/storklocker/_limits.py",
        r"numbers: int = ([\d_]+)",
    ),
    Figure(
        "docs/FORMATS.md",
        r"with N below ([\d,]+)",
        "crates/pktool/src/replacing.rt",
        r"MOST_NAMES: u32 = (\d+)",
    ),
    Figure("docs/DEVELOPMENT.md", r"at\s+most (\d+): of", "tests/edits.py", r"(?m)^MOST = (\d+)$"),
    Figure("docs/THEOREM.md", r"([\d,]+) in the gate", "test", r"    pickles=(\d+)"),
    Figure("tests/README.md", r"`soak.py` ([\d,]+)", "test", r"    pickles=(\d+)"),
    Figure("README.md", r"takes (0\.\d+)", "bench/README.md", r"9\.0 \| [\d,]+ \| (0\.\d+)"),
]
UNITS = {"KiB": 1 << 10, "MiB": 1 << 20, "GiB": 1 << 30}


def number_in(text: str) -> float:
    """The number that a text means: `20_000`, `1 << 30`, `64 KiB`, `four`."""
    word, _, unit = re.sub(r"[,_]", "", text).partition(" ")
    number = WORDS.index(word) + 1 if word in WORDS else float(word)
    if unit.startswith("<< "):
        return number * (1 << int(unit[3:]))
    return number * UNITS.get(unit, 1)


def wrong_figures() -> Iterator[Fault]:
    """Numbers of documents that differ from the sources', or that one of the two no longer has."""
    for figure in FIGURES:
        told = re.findall(figure.told, re.sub(r"\s+", " ", text_of(figure.document)))
        actual = re.search(figure.actual, text_of(figure.source))
        numbers = {number_in(it) for it in told + ([actual[1]] if actual else [])}
        if len(numbers) != 1 or not told or not actual:
            yield Fault(figure.document, 0, f"{figure.told}: {told}, but {actual and actual[1]}")


def speeds() -> Dict[str, List[str]]:
    """The rows of the table of bench/README.md that compares readers, by their shape."""
    table = text_of("bench/README.md").partition("| Shape | MB |")[2].partition("\n\n")[0]
    rows = ([cell.strip() for cell in row.split("|")] for row in table.splitlines()[2:])
    return {row[1]: row[2:] for row in rows}


def wrong_ratios() -> Iterator[Fault]:
    """Ratios that differ from those that docs/speed.svg draws, and a README with other seconds."""
    name = "bench/README.md"
    drawn = re.findall(r">(0\.\d\d)</text>", text_of("docs/speed.svg"))
    told = [row[3] for row in speeds().values()]
    if told != drawn:
        yield Fault(name, 0, f"ratios {told}, but docs/speed.svg has {drawn}")
    seconds, ratio, faster = map(float, speeds()["plain data, protocol 4"][2:5])
    wanted = f"`pickle.loads` {seconds / ratio:.2g}, `pickletools.genops` {seconds * faster:.2g} ("
    if wanted not in re.sub(r"\s+", " ", text_of("README.md")):
        yield Fault("README.md", 0, f"by {name} it must be {wanted}..")


def closure_of(names: Set[str]) -> Set[str]:
    """The definitions of these names, and all that they cite: CRATE/NAME."""
    found: Set[str] = set()
    while names:
        found |= names
        texts = [text_of("crates/{}/specs/{}.antt".format(*name.split("/"))) for name in names]
        cited = {
            "/".join(match)
            for text in texts
            for match in re.findall(r"(?m)^use Rattle\.(pk\w+)\.specs\.(\w+)\b(?!\.\w)", text)
        }
        names = cited - found
    return found


def old_contents() -> Iterator[Fault]:
    """What release/sbom says of the list of what is shipped."""
    told = subprocess.run([ROOT / "release" / "sbom", "--check"], capture_output=True, text=True)
    for line in (told.stdout + told.stderr).splitlines():
        yield Fault("release/sbom.spdx.json", 0, line)


# The definitions that the contract of `check` names, and those of other calls, as the list in
# docs/THEOREM.md calls them.
CHECK = {"pkcheck/Accepted", "pkcheck/Refused", "pkcheck/Answered", "pkmachine/Policies"}
OTHER_CALLS = {
    "a stream of pickles": {"pkcheck/RowOfPickles"},
    "the imports before a refusal": {"pkcheck/WithImports"},
    "a check with an observer": {"pkcheck/Heard"},
    "a check within limits on costs": {"pkload/Costly", "pkload/Loading", "pkload/Tolls"},
    "the optimizer": {"pkopt/Answer"},
    "JSON": {"pkjson/Export"},
}


def wrong_closure() -> Iterator[Fault]:
    """Definitions that docs/THEOREM.md doesn't list as trusted, or lists and needn't."""
    name = "docs/THEOREM.md"
    part = text_of(name).partition("## What is trusted")[2].partition("\n### ")[0]
    of_check = closure_of(CHECK)
    told = {
        f"{crate}/{spec}"
        for crate, specs in re.findall(r"(?s)- in `(pk\w+)/specs`(.*?)[;.]\n", part)
        for spec in re.findall(r"`(\w+)`", specs)
    }
    listed = {"check": (of_check, told)}
    lists = dict(re.findall(r"(?m)^- \*\*([^*]+)\*\*: (`pk\w+/[^-]*)", part))
    for call, roots in OTHER_CALLS.items():
        names = set(re.findall(r"`(pk\w+/\w+)`", lists.pop(call, "")))
        listed[call] = (closure_of(roots) - of_check, names)
    for call, (needed, told) in listed.items():
        for spec in sorted(needed ^ told):
            what = "missing" if spec in needed else "not cited"
            yield Fault(name, 0, f"{call}: {spec} is {what}")
    for call in lists:
        yield Fault(name, 0, f"no definitions are known for {call}")


def old_pictures() -> Iterator[Fault]:
    """Pictures that docs/draw.py would draw otherwise."""
    spec = importlib.util.spec_from_file_location("draw", ROOT / "docs" / "draw.py")
    assert spec and spec.loader
    draw = importlib.util.module_from_spec(spec)
    spec.loader.exec_module(draw)
    for file, drawing in draw.pictures(worked.environment(), worked.has_package()).items():
        if not file.exists() or file.read_text(encoding="utf-8") != drawing:
            yield Fault(f"docs/{file.name}", 0, "isn't current: run docs/draw.py")


# The checks that look at no document of their own.
OF_ALL = [
    wrong_opcodes,
    wrong_figures,
    wrong_ratios,
    wrong_closure,
    old_pictures,
    old_contents,
]

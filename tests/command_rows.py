"""Rows of commands: the words, the files where it runs, and all that it says and leaves there."""
import dataclasses
import pathlib
import re
from typing import Iterator, List, Mapping, Tuple

import rows

WORDS = pathlib.Path(__file__).resolve().parent / "words.txt"
FILE, LIST, OUT = "file.pickle", "list.toml", "out.pickle"
Files = Mapping[str, bytes]


@dataclasses.dataclass(frozen=True)
class Row:
    """A command, the files that it finds, its answer, and the files that it makes or changes."""

    words: Tuple[bytes, ...]
    status: int
    out: bytes
    err: bytes = b""
    files: Files = dataclasses.field(default_factory=dict)
    left: Files = dataclasses.field(default_factory=dict)
    name: bytes = b"pktool"


def row_of(line: str, status: int, said: str, files: Files, left: Files = {}) -> Row:
    """A row whose words have no blanks. With status 2 it is standard error that says something."""
    words, text = tuple(line.encode().split()), said.encode()
    return Row(words, status, *((b"", text) if status == 2 else (text, b"")), files, left)


# ---- lists and checks

LISTED = b'version = 1\n[imports]\ncollections = ["OrderedDict"]\n'
NOTHING = b"version = 1\n[imports]\n"
ONE_PAIR = b'version = 1\n[imports]\na = ["b"]\n'
STACK_OF_ONE = b"version = 2\nimports = {}\nlimits = { stack = 1 }\n"
DICT = b"ccollections\nOrderedDict\n)R."

CHECKS: List[Tuple[bytes, str, bytes, int, str]] = [
    (LISTED, "", DICT, 0, "yes: 28 bytes, 1 imports"),
    (LISTED, "", DICT + b"N", 0, "yes: 28 bytes, 1 imports"),
    (NOTHING, "", DICT, 1, 'no at 0: ImportOffList("collections","OrderedDict")'),
    (
        NOTHING,
        "",
        b'\x8c\x01"\x8c\x02\xc3\xa9\x93.',
        1,
        r'no at 7: ImportOffList("\x22","\xc3\xa9")',
    ),
    (NOTHING, "", b"\xff", 1, "no at 0: UnknownOpcode(255)"),
    (NOTHING, "", b"NN.", 1, "no at 2: LeftOver"),
    (STACK_OF_ONE, "", b"NN.", 1, "no at 1: TooLarge"),
    # rows of pickles
    (ONE_PAIR, "--all", b"N.N.", 0, "yes: 4 bytes, 2 pickles, 0 imports"),
    (ONE_PAIR, "--all", b"N..", 1, "no in pickle 1 at 2: MissingItem"),
    (ONE_PAIR, "--all", b"N\x94.h\0.", 1, "no in pickle 1 at 3: MissingMemo(0)"),
    (ONE_PAIR, "--all", b"", 1, "no in pickle 0 at 0: Truncated"),
    (ONE_PAIR, "--all", b"ca\nb\n.ca\nb\n.", 0, "yes: 12 bytes, 2 pickles, 2 imports"),
    (ONE_PAIR, "--all", b"N.ca\nc\n.", 1, 'no in pickle 1 at 2: ImportOffList("a","c")'),
    # a pickle may name what an earlier one memoized
    (ONE_PAIR, "--all --one-unpickler", b"N\x94.h\0.", 0, "yes: 6 bytes, 2 pickles, 0 imports"),
    (ONE_PAIR, "--all --one-unpickler", b"N\x94.h\1.", 1, "no in pickle 1 at 3: MissingMemo(1)"),
    (
        ONE_PAIR,
        "--all --one-unpickler",
        b"Vos\n\x940Vsystem\n\x94.Va\n\x940Vb\n\x940h\0h\1\x93.",
        1,
        'no in pickle 1 at 30: ImportOffList("os","system")',
    ),
    (
        NOTHING,
        "--all --old-strings unknown",
        b"N.U\x01\xe9.",
        0,
        "yes: 6 bytes, 2 pickles, 0 imports",
    ),
    (NOTHING, "--all --old-strings ascii", b"N.U\x01\xe9.", 1, "no in pickle 1 at 2: NotAscii"),
]

# A pickle, and its check when Python 2 strings become anything, texts, and bytes.
OLD_STRINGS: List[Tuple[bytes, Tuple[str, str, str]]] = [
    (
        b"U\x01aU\x01b\x93.",
        ("no at 6: UnknownImport", "yes: 8 bytes, 1 imports", "no at 6: NotText"),
    ),
    (
        b"U\x01\xe9.",
        ("yes: 4 bytes, 0 imports", "no at 0: NotAscii", "yes: 4 bytes, 0 imports"),
    ),
    (
        b"S'\\x61'\nU\x01b\x93.",
        ("no at 11: UnknownImport", "yes: 13 bytes, 1 imports", "no at 11: NotText"),
    ),
    (b"U\0Na.", ("yes: 5 bytes, 0 imports", "no at 3: WrongClass", "no at 3: WrongClass")),
]

# A tuple doubled twice as a key, and what loading it costs.
DOUBLED = b"})2\x862\x86Ns."
BILL = "bill: levels 3, weight 7, work 7, clash 7, memory 560"
OF_NONE = "bill: levels 0, weight 0, work 0, clash 0, memory 32"
FEW_SETS, CALLED = b"](\x8f\x8fe.", b"cm\nf\n)R}b."
MADE, ANY = 'build = "made"', 'build = "any"'

# What a list limits or rules, the options, a pickle, and its check.
COSTS: List[Tuple[str, str, bytes, int, str]] = [
    ("levels = 3", "", b"})\x85\x85Ns.", 0, "yes: 7 bytes, 0 imports"),
    ("levels = 2", "", b"})\x85\x85Ns.", 1, "no at 5: DeepKey"),
    ("levels = 1", "", b")\x85\x85\x85.", 0, "yes: 5 bytes, 0 imports"),
    ("levels = 1", "", b"}(K\x02)\x85u.", 0, "yes: 8 bytes, 0 imports"),
    ("weight = 7", "", DOUBLED, 0, "yes: 9 bytes, 0 imports"),
    ("weight = 6", "", DOUBLED, 1, "no at 7: HeavyKeys"),
    ("work = 7", "", DOUBLED, 0, "yes: 9 bytes, 0 imports"),
    ("work = 6", "", DOUBLED, 1, "no at 7: HeavyKeys"),
    ("work = 3", "", b"\x8f(K\x0122\x90.", 0, "yes: 8 bytes, 0 imports"),
    ("work = 2", "", b"\x8f(K\x0122\x90.", 1, "no at 6: HeavyKeys"),
    ("clash = 0", "", b"}K\x01Ns.", 1, "no at 4: ManyKeys"),
    ("clash = 0", "", b"}\x8c\x01aNs.", 0, "yes: 7 bytes, 0 imports"),
    ("memory = 744", "", FEW_SETS, 0, "yes: 6 bytes, 0 imports"),
    ("memory = 743", "", FEW_SETS, 1, "no at 5: MuchMemory"),
    # what is refused without limits comes first, and the levels before the weight
    ("levels = 0", "", b"])\x94\x85h\0\x86Ns.", 1, "no at 8: WrongClass"),
    ("levels = 2\nweight = 6", "", DOUBLED, 1, "no at 7: DeepKey"),
    # the greatest values, which nothing exceeds
    ("levels = 4_294_967_295", "", DOUBLED, 0, "yes: 9 bytes, 0 imports"),
    ("memory = 9_223_372_036_854_775_807", "", DOUBLED, 0, "yes: 9 bytes, 0 imports"),
    # BUILD of what an import gave: through the memo, DUP and STACK_GLOBAL; and of a call's result
    (MADE, "", b"cm\nf\n}b.", 1, "no at 6: BuildsImport"),
    (MADE, "", b"cm\nf\n\x940h\0}b.", 1, "no at 10: BuildsImport"),
    (MADE, "", b"cm\nf\n2}b0.", 1, "no at 7: BuildsImport"),
    (MADE, "", b"\x8c\x01m\x8c\x01f\x93}b.", 1, "no at 8: BuildsImport"),
    (MADE, "", CALLED, 0, "yes: 10 bytes, 1 imports"),
    (ANY, "", b"cm\nf\n}b.", 0, "yes: 8 bytes, 1 imports"),
    ("", "", b"cm\nf\n}b.", 0, "yes: 8 bytes, 1 imports"),
    # the bill, whatever is limited
    ("", "--bill", DOUBLED, 0, f"yes: 9 bytes, 0 imports\n{BILL}"),
    ("work = 7", "--bill", DOUBLED, 0, f"yes: 9 bytes, 0 imports\n{BILL}"),
    ("work = 6", "--bill", DOUBLED, 1, "no at 7: HeavyKeys"),
    ("", "--bill", b"cos\nsystem\n.", 1, 'no at 0: ImportOffList("os","system")'),
    ("", "--bill", b"", 1, "no at 0: Truncated"),
    # of a row, each pickle alone keeps within the limits, and the bill is the last one's
    ("work = 7", "--all", 2 * DOUBLED, 0, "yes: 18 bytes, 2 pickles, 0 imports"),
    ("work = 6", "--all", b"N." + DOUBLED, 1, "no in pickle 1 at 9: HeavyKeys"),
    ("work = 6", "--all --one-unpickler", b"N." + DOUBLED, 1, "no in pickle 1 at 9: HeavyKeys"),
    ("work = 6", "--all", b"N..", 1, "no in pickle 1 at 2: MissingItem"),
    ("", "--all --bill", b"N." + DOUBLED, 0, f"yes: 11 bytes, 2 pickles, 0 imports\n{BILL}"),
    ("", "--bill --all", DOUBLED + b"N.", 0, f"yes: 11 bytes, 2 pickles, 0 imports\n{OF_NONE}"),
]

NO_LISTS = [
    (b"version =", "Syntax"),
    (b"# \xff\n", "Syntax"),
    (b"imports = {}\n", "Shape(Version)"),
    (b"version = 2\n", "Shape(Imports)"),
    (b"version = 3\n", "Version"),
    (b"version = 1\nlimits = {}\n", "Shape(TopKey)"),
    (b"version = 1\n", "Shape(Imports)"),
    (b"version = 1\nimports = { a = 1 }", "Shape(Module)"),
    (b"version = 1\nimports = { a = [1] }", "Shape(Name)"),
    (b"version = 2\nimports = {}\nlimits = 1", "Shape(Limits)"),
    (b"", "Shape(Version)"),
    (b'version = "1"', "Shape(Version)"),
    (b"version = 1.0\n[imports]", "Shape(Version)"),
    (b"version = 3\nmore = 1", "Version"),
    (b"version = 1\nmore = 1", "Shape(TopKey)"),
    (b"version = 1\nimports = 1", "Shape(Imports)"),
    (b'version = 1\n[imports]\nm = "f"', "Shape(Module)"),
    (b'version = 1\n[imports]\n"" = ["f"]', "Shape(Module)"),
    (b'version = 1\n[imports]\nm = [""]', "Shape(Name)"),
    (b"version = 1\n[imports]\nm = [1]", "Shape(Name)"),
    (b"version = 1\n[imports]\nb = 1\na = [1]", "Shape(Name)"),
    (b"version = 1\n[imports]\na = 1\nb = [1]", "Shape(Module)"),
    (b"version = 2\nlimits = 1", "Shape(Imports)"),
    (b"version = 2\nimports = {}\nmore = 1", "Shape(TopKey)"),
    (b"version = 1\nimports = {}\nlimits = {}", "Shape(TopKey)"),
    (b"version = 2\nimports = { m = 1 }\nlimits = 1", "Shape(Module)"),
    (b"version = 1\nimports = {}\nrules = {}", "Shape(TopKey)"),
    (b"version = 2\nimports = {}\nrules = 1", "Shape(Rules)"),
    (b"version = 2\nimports = {}\nrules = { call = 1 }", "Shape(RuleKey)"),
    (b"version = 2\nimports = {}\nrules = { build = true }", "Shape(Rule)"),
    (b"version = 2\nimports = {}\nlimits = 1\nrules = 1", "Shape(Limits)"),
    (b"version = 1\nimports = {}\nsubstitutes = {}", "Shape(TopKey)"),
    (b"version = 2\nimports = {}\nrules = 1\nsubstitutes = 1", "Shape(Rules)"),
    (b"version = 2\nimports = {}\nsubstitutes = 1", "Shape(Substitutes)"),
    (b"version = 2\nimports = {}\nsubstitutes = { a = 1 }", "Shape(Substitute)"),
    (b"version = 2\nimports = {}\n[substitutes]\nbuiltins.getattr = 'a'", "Shape(Substitute)"),
]

# The limits of a list, and its first error: keys are read in the order of their bytes.
NO_LIMITS = [
    (b"heap = 1", "Shape(LimitKey)"),
    (b"stack = 1000001", "Shape(Limit)"),
    (b"passed = 1099511627777", "Shape(Limit)"),
    (b"memo = -1", "Shape(Limit)"),
    (b"memo = 1.0", "Shape(Limit)"),
    (b"stack = -1, heap = 1", "Shape(LimitKey)"),
    (b"value = 1, stack = -1", "Shape(Limit)"),
    (b"large = false", "Shape(Limit)"),
    (b"large = 1", "Shape(Limit)"),
    (b'large = "true"', "Shape(Limit)"),
    (b"heap = 1, large = false", "Shape(LimitKey)"),
    (b"heap = 1, large = true", "Shape(LimitKey)"),
    (b"large = false, values = -1, zero = 1", "Shape(Limit)"),
    (b"counted = -1, heap = 1, large = true", "Shape(Limit)"),
    (b"large = true, stack = 4294967296", "Shape(Limit)"),
    (b"large = true, depth = 101", "Shape(Limit)"),
    (b"numbers = 4294967296", "Shape(Limit)"),
    (b"numbers = -1", "Shape(Limit)"),
    (b"levels = 4294967296", "Shape(Limit)"),
    # no key has more levels or a greater weight than are counted
    (b"levels = 1023", "Shape(Limit)"),
    (b"weight = 1048575", "Shape(Limit)"),
    (b"weight = 4294967294", "Shape(Limit)"),
    (b"work = -1", "Shape(Limit)"),
]

# The code of a payload of 200,000 bytes, by its opcode.
LONG_4, LONG_8 = b"\x40\x0d\x03\0", b"\x40\x0d\x03\0\0\0\0\0"

# The start of a pickle, the bytes of a payload that follow, its end, and its check.
PAYLOADS: List[Tuple[bytes, int, bytes, int, str]] = [
    (b"B" + LONG_4, 200_000, b".", 0, "yes: 200006 bytes, 0 imports"),
    (b"\x8e" + LONG_8, 200_000, b"0N.", 0, "yes: 200012 bytes, 0 imports"),
    (b"\x96" + LONG_8, 200_000, b"0ca\nb\n.", 1, 'no at 200010: ImportOffList("a","b")'),
    # exactly a block behind the first one, and a byte less
    (b"B\xfb\xff\x01\0", 131_067, b".", 0, "yes: 131073 bytes, 0 imports"),
    (b"B\xfa\xff\x01\0", 131_066, b".", 0, "yes: 131072 bytes, 0 imports"),
    # the file ends at the payload's end, before it, and within the first block
    (b"B" + LONG_4, 200_000, b"", 1, "no at 200005: Truncated"),
    (b"B" + LONG_4, 199_999, b"", 1, "no at 0: Truncated"),
    (b"B" + LONG_4, 60_000, b"", 1, "no at 0: Truncated"),
    (b"B" + LONG_4, 0, b"", 1, "no at 0: Truncated"),
]


def check_of(allow: bytes, options: str, pickle: bytes, status: int, said: str) -> Row:
    line = f"check --allow {LIST} {options} {FILE}"
    return row_of(line, status, f"{said}\n", {LIST: allow, FILE: pickle})


def checks() -> Iterator[Row]:
    for check in CHECKS:
        yield check_of(*check)
    for pickle, answers in OLD_STRINGS:
        for word, said in zip(("unknown", "ascii", "bytes"), answers):
            status = int(not said.startswith("yes"))
            yield check_of(ONE_PAIR, f"--old-strings {word}", pickle, status, said)
    for said, options, pickle, status, answer in COSTS:
        table = "rules" if said in (MADE, ANY) else "limits"
        limited = f'version = 2\n[imports]\nm = ["f"]\n[{table}]\n{said}\n'.encode()
        yield check_of(limited, options, pickle, status, answer)
    faulty = [(b"version = 2\nimports = {}\nlimits = { %s }" % it, why) for it, why in NO_LIMITS]
    for allow, reason in NO_LISTS + faulty:
        yield check_of(allow, "", DICT, 2, f"list: {reason}")
    for start, count, end, status, said in PAYLOADS:
        yield check_of(NOTHING, "", start + count * b"." + end, status, said)
    two = 2 * (b"B" + LONG_4 + 200_001 * b".")
    yield check_of(NOTHING, "--all", two, 0, "yes: 400012 bytes, 2 pickles, 0 imports")
    yield check_of(NOTHING, "--all", two[:400_010], 1, "no in pickle 1 at 200006: Truncated")


# ---- files that can't be opened, read or written

# A folder can be opened, but not read.
OPENED = [
    (f"check --allow {LIST} .", 1, "no at 0: Source\n"),
    (f"check --allow {LIST} none", 2, "cannot read none\n"),
    ("check --allow . none", 2, "cannot read .\n"),
    ("check --allow no-list none", 2, "cannot read no-list\n"),
    ("dis none", 2, "cannot read none\n"),
    ("imports none", 2, "cannot read none\n"),
    ("json none", 2, "cannot read none\n"),
    ("json .", 2, "cannot read .\n"),
    (f"optimize broken {OUT}", 1, "no at 1: Truncated\n"),
    ("optimize broken .", 1, "no at 1: Truncated\n"),
    ("optimize none .", 2, "cannot read none\n"),
    (f"optimize . {OUT}", 2, "cannot read .\n"),
    (f"optimize {FILE} .", 2, "cannot write .\n"),
    (f"optimize {FILE} none/a", 2, "cannot write none/a\n"),
]


def opened() -> Iterator[Row]:
    files = {LIST: NOTHING, FILE: b"N.", "broken": b"N", OUT: b"before"}
    for line, status, said in OPENED:
        yield row_of(line, status, said, files)


# ---- the other commands


def others() -> Iterator[Row]:
    """The rows of rows.py. A form goes to a new file, over an old one, and over its own pickle."""
    for it in rows.others():
        status, said = it.status or 0, it.said or ""
        if it.result is None:
            yield row_of(f"{it.command} {FILE}", status, said, {FILE: it.pickle})
            continue
        old = {FILE: it.pickle}
        made, line = {OUT: it.result}, f"optimize {FILE} {OUT}"
        yield row_of(line, status, said, old, made)
        yield row_of(line, status, said, {**old, OUT: b"before"}, made)
        yield row_of(f"optimize {FILE} {FILE}", status, said, old, {FILE: it.result})
    # a name that is taken is skipped, and the next one is used
    taken = {FILE: b"N.", OUT: b"before", f"{OUT}.partial": b"mine"}
    yield row_of(f"optimize {FILE} {OUT}", 0, "2 bytes to 2 bytes\n", taken, {OUT: b"N."})


# ---- words


def words() -> Iterator[Row]:
    """The command lines of words.txt, which shows what each says, and its status."""
    text = WORDS.read_text("utf-8")
    found = re.findall(r"(?ms)^\$ pktool(.*?)\n(.*?)^\[(\d)\]\n", text)
    assert len(found) == len(re.findall(r"(?m)^\$ ", text)), "a line without a status"
    for line, said, status in found:
        row = row_of(line, int(status), said, {})
        yield row
        if not row.words:
            # what Linux makes of no words at all, not even a name
            yield dataclasses.replace(row, name=b"")
    yield Row((b"\xff",), 2, b"", b"a word of the command line is not UTF-8\n")
    yield Row((b"dis", b"\xff"), 2, b"", b"a word of the command line is not UTF-8\n")


def every() -> List[Row]:
    return [*words(), *checks(), *opened(), *others()]

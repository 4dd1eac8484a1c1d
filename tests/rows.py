"""Worked rows: a command, its input, and the answer that the format's description gives."""
import dataclasses
import pathlib
from typing import List, Optional, Tuple

EXAMPLES = pathlib.Path(__file__).resolve().parent.parent / "examples"

# Too large to keep with the others: examples/run-all makes it too.
LARGE = {"large-payload": b"B\1\0\0\1" + bytes(16_777_217) + b"."}


@dataclasses.dataclass(frozen=True)
class Row:
    """A command on a pickle, with the text of its list if it needs one. If no answer is recorded,
    the answer with nothing refused counts.
    """

    name: str
    command: str
    pickle: bytes
    allow: Optional[str] = None
    status: Optional[int] = None
    said: Optional[str] = None
    result: Optional[bytes] = None
    options: Tuple[str, ...] = ()
    # what it says, among other things, as its reads are refused in turn
    unread: Optional[str] = None


MARKED = """\
    0: 28 MARK
    1: 8c   SHORT_BINUNICODE "a"
    4: 4b   BININT1 1
    6: 64   DICT
    7: 2e STOP
highest protocol: 4
"""
OPEN_MARK = """\
    0: 28 MARK
    1: 2e   STOP
no at 1: MissingItem
"""
CALL = """\
    0: 80 PROTO 2
    2: 63 GLOBAL "m" "f"
    7: 8a LONG1 <ff>
   10: 85 TUPLE1
   11: 52 REDUCE
   12: 2e STOP
highest protocol: 2
"""
QUOTED = """\
    0: 43 SHORT_BINBYTES "\\x22\\x00\\x5c"
    5: 2e STOP
highest protocol: 3
"""
SIGNED = """\
    0: 4a BININT -2
    5: 47 BINFLOAT <3ff8000000000000>
   14: 30 POP
   15: 2e STOP
highest protocol: 1
"""

DIS = [
    ("28 8c 01 61 4b 01 64 2e", 0, MARKED),
    ("28 2e", 1, OPEN_MARK),
    ("80 02 63 6d 0a 66 0a 8a 01 ff 85 52 2e", 0, CALL),
    ("82 05 2e", 1, "no at 0: ExtensionCode\n"),
    ("4e 8c 05 61", 1, "    0: 4e NONE\nno at 1: Truncated\n"),
    ("43 03 22 00 5c 2e", 0, QUOTED),
    ("28 8c 01 22 4b 01 64 2e", 0, MARKED.replace('"a"', r'"\x22"')),
    ("4a fe ff ff ff 47 3f f8 00 00 00 00 00 00 30 2e", 0, SIGNED),
]

IMPORTS = [
    ("63 6d 0a 66 0a 29 52 8c 01 62 93 2e", 0, '"m" "f"\nunknown\nyes: 12 bytes, 2 imports\n'),
    ("4e", 1, "no at 1: Truncated\n"),
]

OPTIMIZE = [
    ("5d 71 00 4e 71 01 61 68 00 30 2e", "5d 71 00 4e 61 68 00 30 2e", "11 bytes to 9 bytes\n"),
    ("5d 94 4e 94 61 68 01 30 2e", "5d 4e 94 61 68 00 30 2e", "9 bytes to 8 bytes\n"),
    (
        "5d 72 2c 01 00 00 4e 61 6a 2c 01 00 00 30 2e",
        "5d 71 00 4e 61 68 00 30 2e",
        "15 bytes to 9 bytes\n",
    ),
    ("4e 70 37 0a 67 37 0a 30 2e", "4e 70 30 0a 67 30 0a 30 2e", "9 bytes to 9 bytes\n"),
    ("4e 71 00 5d 71 00 30 68 00 30 2e", "4e 5d 71 00 30 68 00 30 2e", "11 bytes to 9 bytes\n"),
    (
        "80 04 95 01 00 00 00 00 00 00 00 4e 95 01 00 00 00 00 00 00 00 2e",
        "80 04 95 02 00 00 00 00 00 00 00 4e 2e",
        "22 bytes to 13 bytes\n",
    ),
    (
        "4e 95 01 00 00 00 00 00 00 00 2e",
        "95 02 00 00 00 00 00 00 00 4e 2e",
        "11 bytes to 11 bytes\n",
    ),
    (
        "80 04 95 02 00 00 00 00 00 00 00 4e 2e",
        "80 04 95 02 00 00 00 00 00 00 00 4e 2e",
        "13 bytes to 13 bytes\n",
    ),
    (
        "80 04 95 03 00 00 00 00 00 00 00 4e 94 2e",
        "80 04 95 02 00 00 00 00 00 00 00 4e 2e",
        "14 bytes to 13 bytes\n",
    ),
    (
        "80 04 95 0a 00 00 00 00 00 00 00 5d 94 4e 71 01 61 68 01 30 2e",
        "80 04 95 09 00 00 00 00 00 00 00 5d 4e 71 00 61 68 00 30 2e",
        "21 bytes to 20 bytes\n",
    ),
    ("4e 2e 4e", "4e 2e", "2 bytes to 2 bytes\n"),
]

JSON = [
    ("7d 8c 01 61 4b 01 73 2e", 0, '{"a":1}\n'),
    ("5d 71 00 68 00 61 2e", 1, "no: TooDeep\n"),
    ("5d 5d 94 61 68 00 4e 61 30 2e", 0, "[[null]]\n"),
    ("49 30 31 0a 2e", 0, "true\n"),
    ("49 31 0a 2e", 0, "1\n"),
    ("8a 00 2e", 0, "0\n"),
    ("8a 08 00 00 00 00 00 00 00 80 2e", 0, "-9223372036854775808\n"),
    ("8a 09 00 00 00 00 00 00 00 80 00 2e", 1, "no at 0: Number\n"),
    ("7d 8c 01 62 4e 73 8c 01 61 88 73 2e", 0, '{"a":true,"b":null}\n'),
    ("7d 8c 01 61 4b 01 73 8c 01 61 4b 02 73 2e", 0, '{"a":2}\n'),
    ("7d 4b 01 4e 73 2e", 1, "no at 4: Key\n"),
    ("43 00 30 4e 2e", 1, "no at 0: NotPlain(SHORT_BINBYTES)\n"),
    ("4e", 1, "no at 1: Truncated\n"),
    ("4e 2e 4e", 0, "null\n"),
    ("29" + "85" * 99 + "2e", 0, "[" * 100 + "]" * 100 + "\n"),
    ("29" + "85" * 100 + "2e", 1, "no: TooDeep\n"),
    # a line that is written in pieces
    ("5d 28" + "4e" * 20_000 + "65 2e", 0, "[" + ",".join(["null"] * 20_000) + "]\n"),
]

# Checks whose answers are written in pieces, that a failed read ends between two pickles, or that
# bound what loading costs.
LONG = 20_000
NOTHING = "version = 1\n[imports]\n"
LIMITED = "version = 2\n[imports]\n[limits]\nwork = {}\n"
OFF_LIST = f'no at 0: ImportOffList("m","{LONG * "f"}")\n'
CHECKS = [
    Row("a long name off the list", "check", b"cm\n" + LONG * b"f" + b"\n.", NOTHING, 1, OFF_LIST),
    Row(
        "a pickle whose row breaks off",
        "check",
        b"N.",
        NOTHING,
        0,
        "yes: 2 bytes, 1 pickles, 0 imports\n",
        options=("--all",),
        unread="no in pickle 1 at 2: Source\n",
    ),
    Row(
        "rows that one Unpickler reads",
        "check",
        b"N\x94.h\0.",
        NOTHING,
        0,
        "yes: 6 bytes, 2 pickles, 0 imports\n",
        options=("--all", "--one-unpickler"),
    ),
    Row(
        "what a key costs",
        "check",
        b"})2\x862\x86Ns.",
        LIMITED.format(7),
        0,
        "yes: 9 bytes, 0 imports\nbill: levels 3, weight 7, work 7, clash 7, memory 560\n",
        options=("--bill",),
    ),
    Row(
        "a key that costs too much",
        "check",
        b"})2\x862\x86Ns.",
        LIMITED.format(6),
        1,
        "no at 7: HeavyKeys\n",
    ),
]


def checks() -> List[Row]:
    """The table of checks."""
    rows = []
    for line in (EXAMPLES / "cases.tsv").read_text().splitlines():
        if line.startswith("#"):
            continue
        pickle, allow, given, status, said = line.split("\t")
        options = () if given == "-" else tuple(given.split())
        contents = LARGE.get(pickle) or (EXAMPLES / "pickles" / f"{pickle}.pickle").read_bytes()
        listed = (EXAMPLES / "lists" / f"{allow}.toml").read_text()
        name = " ".join([f"{pickle} under {allow}", *options])
        rows.append(Row(name, "check", contents, listed, int(status), said + "\n", options=options))
    return rows


def others() -> List[Row]:
    """Rows of the other commands with known answers."""
    rows = []
    for command, answers in [("dis", DIS), ("imports", IMPORTS), ("json", JSON)]:
        for given, status, said in answers:
            rows.append(Row(given[:40], command, bytes.fromhex(given), None, status, said))
    for given, result, said in OPTIMIZE:
        pickle, form = bytes.fromhex(given), bytes.fromhex(result)
        rows.append(Row(given, "optimize", pickle, None, 0, said, form))
    return rows


def unknown() -> List[Row]:
    """Each pickle of the examples, with the commands whose answer for it is not recorded."""
    rows = []
    for file in sorted((EXAMPLES / "pickles").glob("*.pickle")):
        for command in ("dis", "imports", "optimize", "json"):
            rows.append(Row(file.stem, command, file.read_bytes()))
    return rows


def every() -> List[Row]:
    return checks() + CHECKS + others() + unknown()

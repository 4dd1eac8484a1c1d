#!/usr/bin/env python3
"""Compares `pktool json` with Python's own `json` on plain data pickled in every protocol.

Plain data must give the same value as `json.loads(json.dumps(..))`, and the same bytes as `json`
with sorted keys and without spaces. Anything else must be refused, at the instruction that
`pickletools` shows. The last line counts.
"""
import json
import pathlib
import pickle
import pickletools
import subprocess
import sys
import tempfile
from typing import List, Optional, Set, Tuple

import tool

TOOL = tool.program()

LEAST, GREATEST = -(2**63), 2**63 - 1
SURROGATES = range(0xD800, 0xE000)


def nested(depth: int, inner: object) -> object:
    """A value inside this many lists."""
    for _ in range(depth):
        inner = [inner]
    return inner


def shared() -> List[object]:
    """One list and one dict with many references."""
    items = ["shared", {}]
    members = {"items": items, "again": items}
    return [items, members, (items, members), {"items": items, "members": members}]


def cyclic() -> List[object]:
    """A list that contains itself."""
    value: List[object] = []
    value.append({"itself": value})
    return value


def doubled(times: int) -> Tuple[object, ...]:
    """A small pickle of two to this power values."""
    value: Tuple[object, ...] = ()
    for _ in range(times):
        value = (value, value)
    return value


def plane(number: int) -> List[str]:
    """All texts of a plane, some thousands of characters each."""
    points = [point for point in range(number << 16, (number + 1) << 16) if point not in SURROGATES]
    return ["".join(map(chr, points[at : at + 4096])) for at in range(0, len(points), 4096)]


def around(number: int) -> List[int]:
    return [number - 1, number, number + 1]


WORDS = [
    0,
    1,
    -1,
    *(
        n
        for bits in (7, 8, 15, 16, 31, 32, 62)
        for sign in (1, -1)
        for n in around(sign * 2**bits)
    ),
]

PLAIN: List[object] = [
    None,
    True,
    False,
    [True, 1, False, 0],
    WORDS,
    [LEAST, LEAST + 1, GREATEST - 1, GREATEST],
    "",
    "text",
    '"\\/\b\f\n\r\t\x00\x1f\x7f',
    [],
    (),
    {},
    [[]],
    ((),),
    {"": {}},
    [(), [], {}],
    {"a": ()},
    (1,),
    (1, 2),
    (1, 2, 3),
    (1, 2, 3, 4),
    [1],
    {"one": 1},
    list(range(3000)),
    tuple(range(3000)),
    {str(i): i for i in range(3000)},
    nested(99, []),
    nested(100, "inner"),
    nested(100, None),
    {"a": nested(98, ())},
    shared(),
    doubled(17),
    {"b": 1, "a": 2, "": 3, "B": 4, "é": 5, "e\u0301": 6, "\U0001f600": 7, "\uffff": 8, "\x7f": 9},
    ["text"] * 300,
    "x" * 300,
    "\u20ac" * 10_000,
    [
        {
            "id": i,
            "name": f"record {i}",
            "tags": ["a", str(i % 7)],
            "place": (i, -i),
            "done": i % 2 == 0,
        }
        for i in range(400)
    ],
    *map(plane, range(17)),
]

# What isn't plain: the word of the refusal, and the opcodes of the last instruction where it can be
# reported, if any.
NOT_PLAIN: List[Tuple[object, str, Optional[Set[str]]]] = [
    (1.5, "NotPlain", {"FLOAT", "BINFLOAT"}),
    ([1, {"a": -0.0}], "NotPlain", {"FLOAT", "BINFLOAT"}),
    ({"a": 1, 2: 3}, "Key", {"SETITEM", "SETITEMS"}),
    ({None: "key"}, "Key", {"SETITEM"}),
    ({(1, 2): 3}, "Key", {"SETITEM"}),
    (LEAST - 1, "Number", {"LONG", "LONG1"}),
    ([0, GREATEST + 1], "Number", {"LONG", "LONG1"}),
    (2**3000, "Number", {"LONG", "LONG4"}),
    (nested(100, []), "TooDeep", None),
    (nested(101, "inner"), "TooDeep", None),
    (doubled(19), "TooMany", None),
    (doubled(99), "TooMany", None),
    (doubled(100), "TooDeep", None),
    (cyclic(), "TooDeep", None),
]


LONG = '"' + "a" * 70_000  # longer than the pieces in which the text is written

# Pickles as bytes: a long text as a key and as two items of its list, the greatest depth and one
# more, the most values by doubling and more.
ROWS = [
    (
        b"X\x71\x11\x01\0%bq\x000}h\0](h\0h\0%bes." % (LONG.encode(), b"N" * 30_000),
        0,
        json.dumps({LONG: [LONG, LONG, *[None] * 30_000]}, separators=(",", ":")),
    ),
    (b")" + b"\x85" * 99 + b".", 0, "[" * 100 + "]" * 100),
    (b")" + b"\x85" * 100 + b".", 1, "no: TooDeep"),
    (b")" + b"2\x86" * 18 + b".", 0, json.dumps(doubled(18), separators=(",", ":"))),
    (b")" + b"2\x86" * 19 + b".", 1, "no: TooMany"),
    (b")" + b"2\x86" * 99 + b".", 1, "no: TooMany"),
    (b")" + b"2\x86" * 100 + b".", 1, "no: TooDeep"),
    (b"]]\x94ah\x00Na0.", 0, "[[null]]"),
    (b"}\x8c\x01aK\x01s\x8c\x01aK\x02s.", 0, '{"a":2}'),
    (b"C\x000N.", 1, "no at 0: NotPlain(SHORT_BINBYTES)"),
    (b"I01\n.", 0, "true"),
    (b"N.N", 0, "null"),
    (b"N", 1, "no at 1: Truncated"),
]


def exported(folder: pathlib.Path, data: bytes) -> Tuple[int, str, str]:
    """The output of `pktool json` for a pickle."""
    path = folder / "file.pickle"
    path.write_bytes(data)
    ended = subprocess.run([TOOL, "json", path], capture_output=True, text=True, encoding="utf-8")
    return ended.returncode, ended.stdout, ended.stderr


def is_exported(folder: pathlib.Path, value: object, protocol: int) -> bool:
    """Whether the JSON of a value is what Python makes of it."""
    status, text, told = exported(folder, pickle.dumps(value, protocol))
    if status != 0 or told:
        return False
    wanted = json.dumps(value, ensure_ascii=False, sort_keys=True, separators=(",", ":"))
    return json.loads(text) == json.loads(json.dumps(value)) and text == wanted + "\n"


def refusal(data: bytes, word: str, opcodes: Optional[Set[str]]) -> str:
    """The right line for what isn't plain."""
    if opcodes is None:
        return f"no: {word}\n"
    at, name = [
        (at, opcode.name) for opcode, _, at in pickletools.genops(data) if opcode.name in opcodes
    ][-1]
    return f"no at {at}: {word}({name})\n" if word == "NotPlain" else f"no at {at}: {word}\n"


def is_refused(
    folder: pathlib.Path, value: object, protocol: int, word: str, opcodes: Optional[Set[str]]
) -> bool:
    """Whether a value is refused as it should be."""
    data = pickle.dumps(value, protocol)
    return exported(folder, data) == (1, refusal(data, word, opcodes), "")


def main() -> int:
    wrong = 0
    protocols = range(pickle.HIGHEST_PROTOCOL + 1)
    with tempfile.TemporaryDirectory() as name:
        folder = pathlib.Path(name)
        for protocol in protocols:
            for place, value in enumerate(PLAIN):
                if not is_exported(folder, value, protocol):
                    wrong += 1
                    print(
                        f"protocol {protocol}, value {place} of PLAIN: not what Python makes of it",
                        file=sys.stderr,
                    )
            for place, (value, word, opcodes) in enumerate(NOT_PLAIN):
                if not is_refused(folder, value, protocol, word, opcodes):
                    wrong += 1
                    print(
                        f"protocol {protocol}, value {place} of NOT_PLAIN: not refused so",
                        file=sys.stderr,
                    )
        for data, status, line in ROWS:
            if exported(folder, data) != (status, line + "\n", ""):
                wrong += 1
                print(f"{data!r:.60}: not {line:.60}", file=sys.stderr)
    count = len(protocols) * (len(PLAIN) + len(NOT_PLAIN)) + len(ROWS)
    print(f"{count - wrong} passed, {wrong} failed")
    return 1 if wrong else 0


if __name__ == "__main__":
    sys.exit(main())

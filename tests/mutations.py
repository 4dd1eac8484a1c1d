"""Pickles like a fuzzer's: each is made from its number and a seed, by a few changes to real
pickles. As a script it writes a corpus of them for other fuzzers.
"""
import argparse
import collections
import datetime
import decimal
import fractions
import pathlib
import pickle
import pickletools
import random
import struct
import uuid
from typing import Any, Dict, Iterator, List, Optional, Sized

EXAMPLES = pathlib.Path(__file__).resolve().parent.parent / "examples" / "pickles"
MOST_BYTES = 1 << 16

# A spelling of each kind of argument.
ARGUMENTS = {
    "uint1": b"\x01",
    "uint2": b"\x05\x01",
    "int4": b"\xfe\xff\xff\xff",
    "uint4": b"\x01\0\0\0",
    "uint8": b"\x04" + bytes(7),
    "decimalnl_short": b"1\n",
    "decimalnl_long": b"-12345678901234567890L\n",
    "float8": struct.pack(">d", -1.5),
    "floatnl": b"1.5e+10\n",
    "stringnl": b"'a\\x00\"'\n",
    "stringnl_noescape": b"some id\n",
    "stringnl_noescape_pair": b"collections\nOrderedDict\n",
    "unicodestringnl": b"a\\u00e9\xe9\n",
    "string1": b"\x03a\x00\xff",
    "string4": b"\x03\0\0\0a\x00\xff",
    "bytes1": b"\x03\"\\\xff",
    "bytes4": b"\x03\0\0\0\"\\\xff",
    "bytes8": b"\x03" + bytes(7) + b"\"\\\xff",
    "bytearray8": b"\x03" + bytes(7) + b"\x7f~\n",
    "unicodestring1": b"\x03a\xc3\xa9",
    "unicodestring4": b"\x03\0\0\0a\xc3\xa9",
    "unicodestring8": b"\x03" + bytes(7) + b"a\xc3\xa9",
    "long1": b"\x02\x00\xff",
    "long4": b"\x02\0\0\0\x00\xff",
}
INSTRUCTIONS = [
    it.code.encode("latin-1") + (ARGUMENTS[it.arg.name] if it.arg else b"")
    for it in pickletools.opcodes
]

# Numbers for fields and counts, up to the greatest and around the limits.
NUMBERS = [0, 1, 2, 127, 128, 255, 256, 65_535, 65_536, 1_000_000]
NUMBERS += [2**24, 2**24 + 1, 2**31 - 1, 2**31, 2**32 - 1]
LONG_NUMBERS = NUMBERS + [2**32, 2**63 - 1, 2**63, 2**64 - 1]


def cyclic() -> List[object]:
    outer: List[object] = []
    outer.append({"outer": outer, "pair": (outer, [outer])})
    return outer


def objects() -> Iterator[object]:
    shared = ["shared"]
    record: Dict[str, Any] = {
        "id": 7,
        "name": "record",
        "score": 1.5,
        "tags": ["a", "b"],
        "place": (3, -4),
    }
    yield {**record, "done": True, "note": None}
    thrice = {"one": shared, "other": (shared, shared)}
    yield [shared, thrice, 2**70, -(2**63), 2**63 - 1, "\u00e9\u20ac\U0001f600"]
    # sets of numbers: texts have another order each time
    yield [{1, 2, 3}, frozenset({1}), (1, 2, 3, 4), True, False, 1.5]
    numbered = {str(i): i for i in range(20)}
    yield [bytearray(b"bytes"), b"x" * 300, "y" * 300, list(range(300)), numbered]
    yield cyclic()
    numbers = [decimal.Decimal("1.25"), fractions.Fraction(3, 4)]
    yield [collections.OrderedDict(a=1), *numbers, uuid.UUID(int=7)]
    time = datetime.datetime(2001, 2, 3, 4, 5, tzinfo=datetime.timezone.utc)
    yield [time, ValueError("no"), collections.Counter("ab")]


def bombs() -> Iterator[bytes]:
    """Small pickles that stand for much."""
    yield b")" + b"2\x86" * 17 + b"."
    yield b")" + b"\x85" * 99 + b"."
    yield b"(" * 3000 + b"N."
    yield b"N" + b"\x94" * 3000 + b"."
    scattered = (i * 2_654_435_761 % 2**32 for i in range(500))
    yield b"N" + b"".join(b"r" + struct.pack("<I", number) for number in scattered) + b"."
    yield b"Vm\nq\x00Vf\nq\x010" + b"h\x00h\x01\x930" * 300 + b"."


def sources() -> List[bytes]:
    """The pickles that are changed: the examples, objects in every protocol, and bombs."""
    found = [file.read_bytes() for file in sorted(EXAMPLES.glob("*.pickle"))]
    found += [pickle.dumps(it, protocol) for it in objects() for protocol in range(6)]
    return [*found, *bombs()]


def parted(whole: bytes) -> List[bytes]:
    """The instructions of a pickle, and finally the bytes that are none."""
    places: List[Optional[int]] = []
    try:
        places += [place for _, _, place in pickletools.genops(whole)]
    except Exception:  # genops raises whatever its readers raise
        pass
    ends = [*places[1:], len(whole)]
    return [whole[start:end] for start, end in zip(places, ends)] or [whole]


PARTED = [parted(it) for it in sources()]


def place_in(dice: random.Random, whole: Sized) -> int:
    return dice.randrange(len(whole) + 1)


def added(dice: random.Random, parts: List[bytes]) -> List[bytes]:
    at = place_in(dice, parts)
    return [*parts[:at], dice.choice(INSTRUCTIONS), *parts[at:]]


def added_and_dropped(dice: random.Random, parts: List[bytes]) -> List[bytes]:
    at = place_in(dice, parts)
    return [*parts[:at], dice.choice(INSTRUCTIONS), b"0", *parts[at:]]


def taken(dice: random.Random, parts: List[bytes]) -> List[bytes]:
    at = place_in(dice, parts)
    return [*parts[:at], *parts[at + 1 :]]


def repeated(dice: random.Random, parts: List[bytes]) -> List[bytes]:
    at = place_in(dice, parts)
    return [*parts[:at], *parts[at : at + 1] * dice.choice((2, 3, 50, 1000)), *parts[at + 1 :]]


def moved(dice: random.Random, parts: List[bytes]) -> List[bytes]:
    start, end, to = place_in(dice, parts), place_in(dice, parts), place_in(dice, parts)
    left = parts[:start] + parts[end:] if start < end else parts
    return left[:to] + parts[start:end] + left[to:]


def joined(dice: random.Random, parts: List[bytes]) -> List[bytes]:
    other = dice.choice(PARTED)
    return parts[: place_in(dice, parts)] + other[place_in(dice, other) :]


def bit_turned(dice: random.Random, whole: bytes) -> bytes:
    at = dice.randrange(len(whole) or 1)
    turned = bytes(it ^ 1 << dice.randrange(8) for it in whole[at : at + 1])
    return whole[:at] + turned + whole[at + 1 :]


def byte_set(dice: random.Random, whole: bytes) -> bytes:
    at = place_in(dice, whole)
    return whole[:at] + bytes([dice.randrange(256)]) + whole[at + 1 :]


def number_set(dice: random.Random, whole: bytes) -> bytes:
    at, size = place_in(dice, whole), dice.choice((1, 2, 4, 4, 8, 8))
    number: int = dice.choice(LONG_NUMBERS if size == 8 else NUMBERS) % 256**size
    return whole[:at] + number.to_bytes(size, "little") + whole[at + size :]


def cut_out(dice: random.Random, whole: bytes) -> bytes:
    at = place_in(dice, whole)
    return whole[:at] + whole[at + dice.choice((1, 1, 2, 4, 16)) :]


def doubled(dice: random.Random, whole: bytes) -> bytes:
    at, size = place_in(dice, whole), dice.choice((1, 1, 2, 4, 16))
    return whole[:at] + whole[at : at + size] * dice.choice((2, 2, 3, 10, 100)) + whole[at + size :]


def ended(dice: random.Random, whole: bytes) -> bytes:
    return whole[: place_in(dice, whole)]


OF_INSTRUCTIONS = [added, added_and_dropped, taken, repeated, moved, joined]
OF_BYTES = [bit_turned, byte_set, number_set, cut_out, doubled, ended]


def mutated(seed: int, number: int) -> bytes:
    """The pickle of this number: always the same for the same seed."""
    dice = random.Random(seed << 32 | number)
    parts = dice.choice(PARTED)
    for _ in range(dice.choice((0, 1, 2, 4))):
        parts = dice.choice(OF_INSTRUCTIONS)(dice, parts)
    made = b"".join(parts)[:MOST_BYTES]
    for _ in range(dice.choice((0, 0, 0, 1, 2))):
        made = dice.choice(OF_BYTES)(dice, made)
    return made[:MOST_BYTES]


def main() -> None:
    parser = argparse.ArgumentParser(description=__doc__)
    parser.add_argument("folder", type=pathlib.Path, metavar="FOLDER")
    parser.add_argument("--pickles", type=int, default=10_000)
    parser.add_argument("--seed", type=int, default=1)
    asked = parser.parse_args()
    asked.folder.mkdir(parents=True, exist_ok=True)
    for number in range(asked.pickles):
        (asked.folder / f"{number:06}.pickle").write_bytes(mutated(asked.seed, number))


if __name__ == "__main__":
    main()

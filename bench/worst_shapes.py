"""Files designed to cost `pktool optimize` or `pktool json` time or memory, beside those that cost
a check much.
"""
import struct
from typing import Callable, Dict, Iterable, Iterator

from hostile_shapes import ENTRIES, MEGABYTE, Make, repeated, runs, times

KEY = 2 * MEGABYTE


def fetched(numbers: Callable[[], Iterable[int]]) -> Make:
    """An object stored under each of the numbers, and fetched from there at once."""

    def make(_: int) -> Iterator[bytes]:
        yield b"N"
        for number in numbers():
            yield b"r" + struct.pack("<I", number) + b"j" + struct.pack("<I", number) + b"0"
        yield b"."

    return make


def memoized(_: int) -> Iterator[bytes]:
    """A million objects memoized, and each of them fetched."""
    yield b"N"
    yield from times(b"\x94", ENTRIES)
    for number in range(ENTRIES):
        yield b"j" + struct.pack("<I", number) + b"0"
    yield b"."


def key(number: int, last: bytes = b"a") -> bytes:
    """A long text, stored under a number; texts with the same last byte are equal."""
    return b"X" + struct.pack("<I", KEY) + b"a" * (KEY - 1) + last + b"q" + bytes([number]) + b"0"


def keyed(sets: bytes, *numbers: int) -> Make:
    """A dict of long keys, set this many times."""
    keys = [(key(number), 1) for number in numbers]
    return runs(*keys, (b"}", 1), (sets, 200_000 // len(numbers)), (b".", 1))


def dropped_dicts(last: bytes) -> Make:
    """Dicts with the same two long keys, each dropped at once."""
    return runs((key(0), 1), (key(1, last), 1), (b"}h\0Nsh\1Ns0", 100_000), (b"N.", 1))


def layered(_: int) -> Iterator[bytes]:
    """Ninety layers of lists: each list holds all lists of the layer before."""
    width = 240
    yield b"]q\x00"
    for layer in range(90):
        for place in range(width):
            yield b"("
            for below in range(width if layer else 0):
                yield b"j" + struct.pack("<I", (layer - 1) % 2 * width + below)
            yield b"lr" + struct.pack("<I", layer % 2 * width + place) + b"0"
    yield b"."


def branching(_: int) -> Iterator[bytes]:
    """Two hundred thousand dicts with one key."""
    yield b"]X\x01\0\0\0aq\x000"
    yield from times(b"}h\0Nsa", 200_000)
    yield b"."


def written_often(size: int, count: int) -> Make:
    """A list that holds a text of this size this many times."""
    text = (b"X" + struct.pack("<I", size) + b"a" * size + b"q\x000", 1)
    return runs(text, (b"](", 1), (b"h\0", count), (b"e.", 1))


def wide(_: int) -> Iterator[bytes]:
    """A dict with as many keys as a file of some megabytes has."""
    yield b"}("
    for number in range(300_000):
        yield b"\x8c\x06" + f"{number * 7919 % 1_000_000:06}".encode() + b"N"
    yield b"u."


# Those for each command.
OPTIMIZED: Dict[str, Make] = {
    "one number stored and fetched": repeated(b"q\0h\x000", head=b"N", tail=b"."),
    "one number stored": repeated(b"q\0", head=b"N", tail=b"."),
    "one number fetched": repeated(b"h\x000", head=b"Nq\0", tail=b"."),
    "one line stored and fetched": repeated(b"p0\ng0\n0", head=b"N", tail=b"."),
    "a million memoized and fetched": memoized,
    "rising numbers stored and fetched": fetched(lambda: range(ENTRIES)),
    "falling numbers stored and fetched": fetched(lambda: range(ENTRIES - 1, -1, -1)),
    "empty frames between": repeated(b"\x95" + bytes(8) + b"N0"),
}

EXPORTED: Dict[str, Make] = {
    "scalars dropped": repeated(b"N0"),
    "lists dropped": repeated(b"]0"),
    "dicts dropped": repeated(b"}0"),
    "tuples of one, dropped": repeated(b"N\x850"),
    "texts dropped": repeated(b"\x8c\x01a0"),
    "integers dropped": repeated(b"\x8a\x01a0"),
    "a list in a list, filled item by item": repeated(b"Na", head=b"]", tail=b"0N."),
    "a list of one text": repeated(b"h\0a", head=b"X\x01\0\0\0aq\x000]", tail=b"0N."),
    "a dict of one key": repeated(b"h\0Ns", head=b"X\x01\0\0\0aq\x000}", tail=b"."),
    "a dict of one long key": keyed(b"h\0Ns", 0),
    "a dict of two long keys that are equal": keyed(b"h\0Nsh\1Ns", 0, 1),
    "dicts of two long keys that are equal": dropped_dicts(b"a"),
    "dicts of two long keys that differ last": dropped_dicts(b"b"),
    "dicts of one key": branching,
    "a dict of many keys": wide,
    "a long text written 90 times": written_often(10 * MEGABYTE, 90),
    "a short text written 900,000 times": written_often(90, 900_000),
    "layers of lists": layered,
    "doubled 18 times": runs((b")", 1), (b"2\x86", 18), (b".", 1)),
    "doubled 99 times": runs((b")", 1), (b"2\x86", 99), (b".", 1)),
    "lists in lists": runs((b"]", ENTRIES), (b"a", ENTRIES - 1), (b".", 1)),
    "tuples in tuples": repeated(b"\x85", head=b")", tail=b"."),
    "a list that holds itself a million times": runs((b"]q\0", 1), (b"h\0a", ENTRIES), (b".", 1)),
    "as many values as may be": runs((b"]", 1), (b"Na", ENTRIES - 1), (b".", 1)),
    "one value more": runs((b"]", 1), (b"Na", ENTRIES), (b".", 1)),
}

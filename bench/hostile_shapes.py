"""Files that are designed to cost time or memory, and the lists they are checked under.

Most are a head, a repeated piece and a tail, and nearly all get a yes, so that the whole file is
read. Some scale to any size; the others reach a limit of the reader.
"""
import argparse
import dataclasses
import json
import struct
from typing import Callable, Iterable, Iterator, Sequence, Tuple

MEGABYTE = 10**6
LINE = 65_536
NUMERAL = 1_024
PAYLOAD = 2**24
ENTRIES = 1_000_000
NOTHING = "version = 1\n[imports]\n"
LARGE = "version = 2\n[imports]\n[limits]\nlarge = true\n"

# Makes the chunks of a file of this many megabytes.
Make = Callable[[int], Iterable[bytes]]


@dataclasses.dataclass(frozen=True)
class Hostile:
    """A shape: the chunks of the file for a number of megabytes, and the list it is checked under.
    """

    make: Make
    allow: str = NOTHING


def options(text: str, rounds: int) -> argparse.ArgumentParser:
    """The options of a bench that runs commands on these files, and whose docstring this is."""
    words = argparse.ArgumentParser(description=text.splitlines()[0])
    words.add_argument(
        "--megabytes", type=int, default=16, help="size of the scalable shapes in MB (16)"
    )
    words.add_argument(
        "--rounds", type=int, default=rounds, help=f"runs of each; the best counts ({rounds})"
    )
    words.add_argument(
        "--only", default="", metavar="WORD", help="only shapes with this word in their names"
    )
    return words


def times(piece: bytes, count: int) -> Iterator[bytes]:
    """A piece repeated this many times, in chunks."""
    most = max(1, 2**16 // len(piece))
    for _ in range(count // most):
        yield piece * most
    yield piece * (count % most)


def repeated(piece: bytes, head: bytes = b"", tail: bytes = b"N.") -> Make:
    """As many pieces as fill the size."""

    def make(megabytes: int) -> Iterator[bytes]:
        yield head
        yield from times(piece, megabytes * MEGABYTE // len(piece))
        yield tail

    return make


def runs(*pieces: Tuple[bytes, int]) -> Make:
    """Pieces and their counts, for any size."""

    def make(_: int) -> Iterator[bytes]:
        for piece, count in pieces:
            yield from times(piece, count)

    return make


def numbered(numbers: Callable[[], Iterable[int]]) -> Make:
    """The top object, stored under each of the numbers."""

    def make(_: int) -> Iterator[bytes]:
        yield b"N"
        for number in numbers():
            yield b"r" + struct.pack("<I", number)
        yield b"."

    return make


def scattered() -> Iterator[int]:
    """The numbers below 2^20 with reversed bits, except the last."""
    return (int(f"{i:020b}"[::-1], 2) << 8 for i in range(ENTRIES))


def with_line(code: bytes, line: bytes) -> bytes:
    return code + line + b"\n0"


def text(size: int) -> bytes:
    """A text that is stored under number 0."""
    return b"X" + struct.pack("<I", size) + b"a" * size + b"q\0"


def list_of(modules: Iterable[Tuple[str, Sequence[str]]]) -> str:
    """A list file with these modules and their names."""
    lines = [f'"{module}" = {json.dumps(names)}' for module, names in modules]
    return "version = 1\n[imports]\n" + "\n".join(lines) + "\n"


def imports(pairs: Iterable[Tuple[str, str]]) -> Make:
    """The imports, repeated, with their objects dropped."""
    return repeated(b"".join(f"c{module}\n{name}\n0".encode() for module, name in pairs))


LONG = "a" * LINE
MODULES = [f"package{i}.module" for i in range(50_000)]
SPREAD = range(0, 50_000, 37)

# Lines of the greatest length for every opcode that has lines, and lines of nothing but escapes.
LINES = {
    "FLOAT": with_line(b"F", b"1" * LINE),
    "INT": with_line(b"I", b"1" * NUMERAL),
    "LONG": with_line(b"L", b"1" * (NUMERAL - 1) + b"L"),
    "STRING": with_line(b"S", b"'" + b"a" * (LINE - 2) + b"'"),
    "UNICODE": with_line(b"V", b"a" * LINE),
    "UNICODE, Latin-1": with_line(b"V", b"\xe9" * LINE),
    "PERSID": with_line(b"P", b"a" * LINE),
    "PUT and GET": b"Np4294967295\n0g4294967295\n0",
    "STRING, escapes": with_line(b"S", b"'" + b"\\x41" * (LINE // 4 - 1) + b"'"),
    "UNICODE, escapes of four digits": with_line(b"V", b"\\u0061" * (LINE // 6)),
    "UNICODE, escapes of eight digits": with_line(b"V", b"\\U0001f600" * (LINE // 10)),
    "UNICODE, one byte": with_line(b"V", b"a"),
}

# Pieces that leave the stack and the memo as they were.
PIECES = {
    **{f"lines: {name}": line for name, line in LINES.items()},
    "empty texts": b"\x8c\x000",
    "texts of one byte": b"\x8c\x01a0",
    "marks made and taken": b"(1",
    "slices of nothing": b"(l0",
    "PROTO": b"\x80\x04",
    "empty frames": b"\x95" + bytes(8),
    "frames of two bytes": b"\x95\x02" + bytes(7) + b"N0",
    "empty payloads": b"C\x000",
    "buffers": b"\x970",
    "persistent objects": b"NQ0",
}

# Uses of one text of a megabyte.
TEXT = b"X" + struct.pack("<I", MEGABYTE) + b"a" * MEGABYTE + b"q\0"
OF_A_TEXT = {
    "a long text fetched": b"h\x000",
    "a long text doubled": b"20",
    "a long text stored": b"q\0",
}

# Imports that the list permits, so that each is looked up and recorded.
IMPORTS = {
    "one import again and again": Hostile(
        repeated(b"h\0h\x01\x930", head=b"Vm\nq\x000Vf\nq\x010"), list_of([("m", ["f"])])
    ),
    "one GLOBAL of short names again and again": Hostile(
        imports([("m", "f")]), list_of([("m", ["f"])])
    ),
    "two GLOBALs of short names in turns": Hostile(
        imports([("m", "f"), ("m", "g")]), list_of([("m", ["f", "g"])])
    ),
    "one INST of short names again and again": Hostile(
        repeated(b"(im\nf\n0"), list_of([("m", ["f"])])
    ),
    "lines: GLOBAL, two of them": Hostile(imports([(LONG, LONG)]), list_of([(LONG, [LONG])])),
    "lines: INST, two of them": Hostile(
        repeated(b"(i" + with_line(f"{LONG}\n".encode(), LONG.encode())), list_of([(LONG, [LONG])])
    ),
    "50,000 modules listed": Hostile(
        imports([(MODULES[i], "name") for i in SPREAD]),
        list_of([(module, ["name"]) for module in MODULES]),
    ),
    "50,000 names of a module listed": Hostile(
        imports([("module", MODULES[i]) for i in SPREAD]), list_of([("module", MODULES)])
    ),
}

# As many entries as the limits allow.
ENTRIES_OF = {
    "marks": runs((b"(", ENTRIES), (b"N.", 1)),
    "objects": runs((b"N", ENTRIES), (b".", 1)),
    "memo entries": runs((b"N", 1), (b"\x94", ENTRIES), (b".", 1)),
    "memo entries of a long text": runs((TEXT, 1), (b"\x94", ENTRIES - 1), (b".", 1)),
    "memo entries in rising numbers": numbered(lambda: range(ENTRIES)),
    "memo entries in rising numbers from 2": numbered(lambda: range(2, ENTRIES + 2)),
    "memo entries in falling numbers": numbered(lambda: range(ENTRIES - 1, -1, -1)),
    "memo entries in scattered numbers": numbered(scattered),
    "a long list": runs((b"](", 1), (b"N", ENTRIES - 2), (b"e.", 1)),
    "a long tuple": runs((b"(", 1), (b"N", ENTRIES - 1), (b"t.", 1)),
    "a long dict": runs((b"}(", 1), (b"N", ENTRIES - 2), (b"u.", 1)),
    "lists in lists": runs((b"]", ENTRIES), (b"a", ENTRIES - 1), (b".", 1)),
}

# Payloads as long as the limit allows, complete and without their last byte.
COUNTED = {
    "BINBYTES": b"B" + struct.pack("<I", PAYLOAD),
    "BINBYTES8": b"\x8e" + struct.pack("<Q", PAYLOAD),
    "BYTEARRAY8": b"\x96" + struct.pack("<Q", PAYLOAD),
    "BINSTRING": b"T" + struct.pack("<i", PAYLOAD),
    "LONG4": b"\x8b" + struct.pack("<i", PAYLOAD),
    "BINUNICODE": b"X" + struct.pack("<I", PAYLOAD),
    "BINUNICODE8": b"\x8d" + struct.pack("<Q", PAYLOAD),
}

GROWING = {
    **{name: Hostile(repeated(piece)) for name, piece in PIECES.items()},
    **{name: Hostile(repeated(piece, head=TEXT, tail=b".")) for name, piece in OF_A_TEXT.items()},
    "tuples of tuples": Hostile(repeated(b"\x85", head=b"N", tail=b".")),
    **IMPORTS,
}

AT_LIMITS = {
    **{name: Hostile(make) for name, make in ENTRIES_OF.items()},
    **{
        f"payload of {name}": Hostile(runs((head, 1), (b"a", PAYLOAD), (b".", 1)))
        for name, head in COUNTED.items()
    },
    **{
        f"payload of {name}, cut": Hostile(runs((head, 1), (b"a", PAYLOAD - 1)))
        for name, head in COUNTED.items()
    },
}


def numbered_over(numbers: Callable[[int], Iterable[int]]) -> Make:
    """The top object, stored under as many numbers as fill the size."""

    def make(megabytes: int) -> Iterable[bytes]:
        return numbered(lambda: numbers(megabytes * MEGABYTE // 5))(megabytes)

    return make


def falling(count: int) -> range:
    return range(count - 1, -1, -1)


def far_apart(count: int) -> Iterator[int]:
    """Numbers of 32 bits that are far from one another."""
    return ((i * 2_654_435_761) % 2**32 for i in range(count))


def text_of(share: int) -> Make:
    """A text whose count is this share of the size, and bytes up to the size."""

    def make(megabytes: int) -> Iterator[bytes]:
        size = megabytes * MEGABYTE
        yield b"X" + struct.pack("<I", int(size * share))
        yield from times(b"a", size)
        yield b"."

    return make


# What grows without bound under the limits for large data: stack entries, memo entries and
# payloads.
AT_NO_LIMIT = {
    name: Hostile(make, LARGE)
    for name, make in {
        "marks": repeated(b"(", tail=b"N."),
        "objects": repeated(b"N", tail=b"."),
        "texts of one byte": repeated(b"\x8c\x01a", tail=b"."),
        "memo entries": repeated(b"\x94", head=b"N", tail=b"."),
        "memo entries in rising numbers": numbered_over(range),
        "memo entries in falling numbers": numbered_over(falling),
        "memo entries in numbers far apart": numbered_over(far_apart),
        "a long list": repeated(b"N", head=b"](", tail=b"e."),
        "a long tuple": repeated(b"N", head=b"(", tail=b"t."),
        "a long dict": repeated(b"NN", head=b"}(", tail=b"u."),
        "lists in lists": repeated(b"]", tail=b"."),
        "one text": text_of(1),
        "one text that is cut": text_of(2),
    }.items()
}

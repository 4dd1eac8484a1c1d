"""The pickles that the benchmark measures, and how they are written to a file.

A shape yields its bytes in chunks, so that its writer never holds it whole: on Linux the peak
memory of a new child is at least that of its parent.
"""
import datetime
import functools
import os
import pathlib
import pickle
from typing import Callable, Dict, Iterable, Iterator, List, Tuple

RECORDS = 125_000

# Makes the chunks of a file.
Make = Callable[[], Iterable[bytes]]


def record(i: int) -> Dict[str, object]:
    """A record like a job queue's: texts, numbers, a list, a tuple."""
    return {
        "id": i,
        "name": f"record {i}",
        "score": i / 7,
        "tags": ["a", "b", str(i % 100)],
        "place": (i, -i),
        "done": i % 2 == 0,
        "note": None,
    }


def plain(protocol: int, records: int = RECORDS) -> Iterator[bytes]:
    """Dicts and lists of texts and numbers."""
    yield pickle.dumps([record(i) for i in range(records)], protocol)


def exported(protocol: int, records: int = 60_000) -> Iterator[bytes]:
    """Such records without their floats, as many as may be exported: some 720,000 values."""
    rows = [record(i) for i in range(records)]
    for row in rows:
        del row["score"]
    yield pickle.dumps(rows, protocol)


def texts(count: int = 200_000) -> Iterator[bytes]:
    """A list of texts, each as long as a line."""
    lines = [f"line {i} of a text, which is as long as lines are" for i in range(count)]
    yield pickle.dumps(lines, 4)


def integers(count: int = 900_000) -> Iterator[bytes]:
    """A list of integers of all lengths."""
    spread = (i * 0x9E3779B97F4A7C15 % 2**64 for i in range(count))
    yield pickle.dumps([number - 2**63 >> i % 64 for i, number in enumerate(spread)], 4)


def datetimes(count: int = 300_000) -> Iterator[bytes]:
    """Objects that a class makes: each fetches a name, has ten bytes, and is a call."""
    first = datetime.datetime(2001, 2, 3)
    yield pickle.dumps([first + datetime.timedelta(minutes=i) for i in range(count)], 4)


def byte_strings(count: int = 16, size: int = 4 * 2**20) -> Iterator[bytes]:
    """Payloads that nothing looks into."""
    yield pickle.dumps([bytes([i]) * size for i in range(count)], 4)


# Pickles like a user's. The target of `pktool check` is a quarter of the time of `pickle.loads`.
SHAPES: Dict[str, Make] = {
    "plain data, protocol 0": functools.partial(plain, 0),
    "plain data, protocol 2": functools.partial(plain, 2),
    "plain data, protocol 4": functools.partial(plain, 4),
    "datetimes, protocol 4": datetimes,
    "byte strings, protocol 4": byte_strings,
}

# Plain data within the limits of JSON. The target of `pktool json` is the time of
# `json.dumps(pickle.loads(..))` on each.
EXPORTED: Dict[str, Make] = {
    "records, protocol 0": functools.partial(exported, 0),
    "records, protocol 2": functools.partial(exported, 2),
    "records, protocol 4": functools.partial(exported, 4),
    "texts, protocol 4": texts,
    "integers, protocol 4": integers,
}


def blocks(count: int = 16, size: int = 4 * 2**20) -> List[bytes]:
    """Byte strings."""
    return [bytes([i]) * size for i in range(count)]


# What costs a check most beside `pickle.loads`, because that makes little of it: texts that all
# differ, objects of few instructions, and payloads behind a frame. By protocol and value.
BESIDE_LOADS: Dict[str, Tuple[int, Callable[[], object]]] = {
    "different texts of 40 bytes": (
        4, lambda: [f"line {i} of a text, as long as lines are, {i}" for i in range(200_000)]
    ),
    "different short texts": (4, lambda: [f"text {i}" for i in range(400_000)]),
    "different texts beyond ASCII": (4, lambda: [f"\u00e9t\u00e9 {i}" for i in range(400_000)]),
    "one text again and again": (4, lambda: ["same"] * 400_000),
    "a set of texts": (4, lambda: {f"k{i}" for i in range(400_000)}),
    "a dict of texts and integers": (4, lambda: {f"key {i}": i for i in range(400_000)}),
    "a dict of texts": (4, lambda: {f"key {i}": f"value {i}" for i in range(200_000)}),
    "integers": (4, lambda: list(range(400_000))),
    "floats": (4, lambda: [i / 7 for i in range(400_000)]),
    "pairs of integers": (4, lambda: [(i, -i) for i in range(400_000)]),
    "lists in a list": (4, lambda: [[i] for i in range(400_000)]),
    "records, protocol 2": (2, lambda: [record(i) for i in range(40_000)]),
    "records, protocol 4": (4, lambda: [record(i) for i in range(40_000)]),
}

# Byte strings: alone they have no frame, and what is beside them puts them behind one.
PAYLOADS: Dict[str, Callable[[], object]] = {
    "bytes": blocks,
    "a dict of bytes": lambda: dict(enumerate(blocks())),
    "bytes behind a title": lambda: ["title", *blocks()],
    "names and bytes": lambda: [(f"n{i}", it) for i, it in enumerate(blocks())],
}
BESIDE_LOADS.update(
    (f"{name}, protocol {protocol}", (protocol, make))
    for name, make in PAYLOADS.items()
    for protocol in (3, 4, 5)
)

# The names that these import.
LIST = 'version = 1\n[imports]\ndatetime = ["datetime"]\n'


def write(path: pathlib.Path, chunks: Iterable[bytes]) -> int:
    """Writes a file, and returns its size."""
    with open(path, "wb") as out:
        for chunk in chunks:
            out.write(chunk)
    return os.path.getsize(path)


def write_apart(path: pathlib.Path, make: Make) -> int:
    """Writes a file in a separate process, whose memory is then freed."""
    child = os.fork()
    if child == 0:
        try:
            write(path, make())
        except BaseException:
            os._exit(1)
        os._exit(0)
    if os.waitpid(child, 0)[1] != 0:
        raise RuntimeError(f"{path} could not be written")
    return os.path.getsize(path)

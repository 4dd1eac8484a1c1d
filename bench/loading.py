#!/usr/bin/env python3
"""Loads pickles that are designed to cost their reader time, memory or its stack.

Each that a guard with the default limits accepts is loaded by it, in a process of its own, with
limits. The status is 1 if that takes more than a second, or 250 bytes of memory for a byte of the
pickle. Keys made to collide are bounded by `clash` alone: they are checked with `clash=30_000`.
With --bare, what is refused is loaded too: the process is killed after some seconds, or crashes.
Last, it measures what a unit of work takes to hash, and a level of the C stack.
"""
import argparse
import os
import pathlib
import resource
import struct
import subprocess
import sys
from typing import Dict, List, Set, Tuple

PYTHON = str(pathlib.Path(__file__).resolve().parent.parent / "python")
sys.path.insert(0, PYTHON)
os.environ["PYTHONPATH"] = PYTHON  # of the processes that load

from storklocker import AllowList, Limits, check  # noqa: E402

SECONDS, MEMORY, LEAST = 1.0, 250, 10**6
PRIME = 2**61 - 1  # the modulus of the hashes of numbers
TURN, FIRST, OTHER = 2870177450012600261, 11400714785074694791, 14029467366897019727
MASK = 2**64 - 1

LOADS = """
import pickle, resource, sys, time
from storklocker import AllowList, Guard, Limits
data, own = sys.stdin.buffer.read(), resource.RUSAGE_SELF
loads = {"bare": pickle.loads, "guarded": Guard(AllowList([])).loads}[sys.argv[1]]
peak, start = resource.getrusage(own).ru_maxrss, time.process_time()
kept = loads(data)
took = time.process_time() - start
print(f"{took:.3f} {resource.getrusage(own).ru_maxrss - peak}")
"""

HASHES = """
import sys, threading
threading.stack_size(1 << 20)
made = ()
for _ in range(int(sys.argv[1])):
    made = (made,)
thread = threading.Thread(target=hash, args=(made,))
thread.start()
thread.join()
"""


def counted(code: bytes, payload: bytes) -> bytes:
    """An instruction with a count of four bytes."""
    return code + struct.pack("<I", len(payload)) + payload


def number(value: int) -> bytes:
    """A LONG1."""
    text = value.to_bytes(value.bit_length() // 8 + 1, "little", signed=True)
    return b"\x8a%c%b" % (len(text), text)


def item(value: int) -> bytes:
    """A BININT."""
    return b"J" + struct.pack("<i", value)


def added(items: bytes) -> bytes:
    """A set of these items."""
    return b"\x8f(" + items + b"\x90."


def pairs_of_one_hash(count: int) -> List[Tuple[int, int]]:
    """Pairs of numbers whose tuples have one hash on a machine of 64 bits."""

    def turned(value: int, by: int) -> int:
        return (value << by | value >> (64 - by)) & MASK

    back = pow(OTHER, -1, 2**64)
    wanted = turned(pow(FIRST, -1, 2**64) * 12345678901234567 & MASK, 33)
    found: List[Tuple[int, int]] = []
    first = 0
    while len(found) < count:
        first += 1
        lane = turned(TURN + first * OTHER & MASK, 31) * FIRST & MASK
        other = (wanted - lane) * back & MASK
        other -= (other >> 63) << 64
        if abs(other) < PRIME and other != -1:
            found.append((first, other))
    return found


def walk_of_a_set(bits: int, fill: int) -> List[int]:
    """Numbers that fill the places which a set of this many bits of places tries for 7."""
    mask, at = (1 << bits) - 1, 7
    taken: Set[int] = set()
    while len(taken) < fill:
        taken |= set(range(at, at + 10)) if at + 9 <= mask else {at}
        at = at * 5 + 1 & mask
    return [place + mask + 1 for place in taken]


TWINS = 10**6 // 3
SHAPES: Dict[str, bytes] = {
    "a deep tuple as a key": b"})" + b"\x85" * 160_000 + b"Ns.",
    "a deep tuple in a frozenset": b"()" + b"\x85" * 160_000 + b"\x91.",
    "a tuple doubled 30 times": b"})" + b"2\x86" * 30 + b"Ns.",
    "a tuple doubled by the memo": b"})q\0" + b"0(h\0h\0tq\0" * 30 + b"Ns.",
    "a long tuple again and again": added(b"(" + b"K\1" * 125_000 + b"t" + b"2" * 250_000),
    "a large number again and again": added(counted(b"\x8b", b"\1" * 500_000) + b"2" * 500_000),
    "a text and its twin, again": added(counted(b"X", b"a" * TWINS) * 2 + b"2" * TWINS),
    "a frozenset doubled 25 times": added((b"(" * 25 + b"(\x91" + b"2\x86\x91" * 25) * 2),
    "empty sets": b"](" + b"\x8f" * 900_000 + b"e.",
    "empty dicts": b"](" + b"}" * 900_000 + b"e.",
    "frozensets of nothing": b"](" + b"(\x91" * 500_000 + b"e.",
    "views of a buffer": b"](\x96\1" + bytes(7) + b"aq\0" + b"h\0\x98" * 333_000 + b"e.",
    "a chain of tuples": b")" + b"\x85" * 10**6 + b".",
    "a chain of lists": b"]" * 10**6 + b"a" * (10**6 - 1) + b".",
    "a chain of frozensets": b"(" * 500_000 + b"N" + b"\x91" * 500_000 + b".",
    "the greatest memo number": b"Nr" + struct.pack("<I", 999_999) + b".",
}
COLLIDING: Dict[str, bytes] = {
    "numbers of one hash": added(b"".join(number(7 + PRIME * i) for i in range(1, 40_001))),
    "pairs of one hash": added(
        b"".join(number(a) + number(b) + b"\x86" for a, b in pairs_of_one_hash(20_000))
    ),
    "numbers in each other's way": added(
        b"".join(map(item, walk_of_a_set(18, 150_000))) + b"K\x07" + b"2" * 20_000
    ),
}


def loaded(data: bytes, way: str) -> str:
    """What a process says that loads a pickle, "bare" or "guarded": seconds, and KiB of memory; or
    its status. Of three such processes, the first by this.
    """
    return min(once_loaded(data, way) for _ in range(3))


def once_loaded(data: bytes, way: str, seconds: int = 5) -> str:

    def limit() -> None:
        resource.setrlimit(resource.RLIMIT_CPU, (seconds, seconds + 1))
        resource.setrlimit(resource.RLIMIT_AS, (4 << 30, 4 << 30))
        resource.setrlimit(resource.RLIMIT_CORE, (0, 0))

    words = [sys.executable, "-c", LOADS, way]
    ran = subprocess.run(words, input=data, capture_output=True, preexec_fn=limit)
    return ran.stdout.decode().strip() if ran.returncode == 0 else f"status {ran.returncode}"


def is_within(data: bytes, line: str) -> bool:
    took, grew = (float(word) for word in line.split())
    return took <= SECONDS and grew * 1024 <= MEMORY * max(len(data), LEAST)


def work_of_a_unit() -> float:
    """The nanoseconds that a unit of work takes, in a pickle with nearly all that is allowed."""
    key, times = b")" + b"2\x86" * 18 + b"q\0" + b"0", 190  # it weighs 2^19 - 1
    data = b"\x80\2" + key + b"}(" + b"h\0N" * times + b"u."
    return float(loaded(data, "guarded").split()[0]) / ((2**19 - 1) * times) * 1e9


def stack_of_a_level() -> float:
    """The bytes of the C stack that a level takes: how deep a key a thread with 1 MiB hashes."""
    low, high = 1, 1 << 20
    while high - low > 64:
        middle = (low + high) // 2
        ran = subprocess.run([sys.executable, "-c", HASHES, str(middle)], capture_output=True)
        low, high = (middle, high) if ran.returncode == 0 else (low, middle)
    return (1 << 20) / low


def main() -> int:
    words = argparse.ArgumentParser(description=__doc__.splitlines()[0])
    words.add_argument("--bare", action="store_true", help="load what is refused, too")
    asked, failed = words.parse_args(), 0
    for shapes, limits in ((SHAPES, Limits()), (COLLIDING, Limits(clash=30_000))):
        for name, data in shapes.items():
            verdict = check(data, AllowList([]), limits=limits)
            way = "guarded" if verdict else "bare"
            line = loaded(data, way) if verdict or asked.bare else ""
            is_bad = bool(verdict) and (line.startswith("status") or not is_within(data, line))
            failed += is_bad
            print(f"{name:32}{len(data):9}  {verdict!s:32}  {line}{'  TOO MUCH' * is_bad}")
    print(f"a unit of work takes {work_of_a_unit():.0f} ns, a level {stack_of_a_level():.0f} bytes")
    return 1 if failed else 0


if __name__ == "__main__":
    sys.exit(main())

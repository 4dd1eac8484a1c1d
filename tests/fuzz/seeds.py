#!/usr/bin/env python3
"""Writes what libFuzzer begins with: pickles into the folder SEEDS, and the instructions into DICT.

    tests/fuzz/seeds.py SEEDS DICT
"""

import collections
import datetime
import hashlib
import pathlib
import pickle
import pickletools
import sys

sys.path.insert(0, str(pathlib.Path(__file__).resolve().parents[1] / "readers"))

import shapes  # noqa: E402

VALUES = (
    {1, 2}, frozenset([1]), print, collections.Counter("aab"), bytearray(b"x"), 2**70, -1, 1.5,
    True, "é" * 300, b"b" * 300, datetime.datetime.max, {"a": {"b": [("c", 1.5)]}}, [[]] * 3,
    "\ud800",
)
WORDS = (b"m\nf\n", b"collections\nOrderedDict\n", b"m", b"f", b"\x8c\x01m\x8c\x01f\x93", b"L\n")


def seeds():
    """The pickles."""
    for value in VALUES:
        for protocol in range(pickle.HIGHEST_PROTOCOL + 1):
            yield pickle.dumps(value, protocol)
    yield from shapes.GOOD
    for front in shapes.FRONTS:
        yield front + b"N."
        for ask in shapes.ASKS:
            yield front + ask
    yield b"".join(shapes.GOOD[:9])


def main():
    folder, words = map(pathlib.Path, sys.argv[1:])
    folder.mkdir(parents=True, exist_ok=True)
    for data in seeds():
        (folder / hashlib.sha1(data).hexdigest()).write_bytes(data)
    codes = [opcode.code.encode("latin-1") for opcode in pickletools.opcodes]
    lines = ['"' + "".join(f"\\x{byte:02x}" for byte in word) + '"' for word in (*codes, *WORDS)]
    words.write_text("\n".join(lines) + "\n")


if __name__ == "__main__":
    main()

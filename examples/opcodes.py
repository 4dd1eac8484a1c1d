#!/usr/bin/env python3
"""Compares the line of each opcode with the name, offset and argument in CPython's `pickletools`.
"""
import ast
import pathlib
import pickle
import pickletools
import struct
import subprocess
import sys
import tempfile
from typing import Any, Callable, Dict, List, Optional

import tool

TOOL = tool.program()

# A spelling of each kind of argument.
SPELLINGS = {
    "uint1": b"\x05",
    "uint2": b"\x05\x01",
    "int4": b"\xfe\xff\xff\xff",
    "uint4": b"\xfe\xff\xff\xff",
    "uint8": b"\x01" + bytes(7),
    "decimalnl_short": b"7\n",
    "decimalnl_long": b"-12345678901234567890L\n",
    "float8": struct.pack(">d", -1.5),
    "floatnl": b"1.5e+10\n",
    "stringnl": b"'a\\x00\"'\n",
    "stringnl_noescape": b"some id\n",
    "stringnl_noescape_pair": b"module\nname\n",
    "unicodestringnl": b"a\\u00e9\xe9\n",
    "string1": b"\x03a\x00\xff",
    "string4": b"\x03\x00\x00\x00a\x00\xff",
    "bytes1": b'\x03"\\\xff',
    "bytes4": b'\x03\x00\x00\x00"\\\xff',
    "bytes8": b"\x03" + bytes(7) + b'"\\\xff',
    "bytearray8": b"\x03" + bytes(7) + b"\x7f~\n",
    "unicodestring1": b"\x03a\xc3\xa9",
    "unicodestring4": b"\x03\x00\x00\x00a\xc3\xa9",
    "unicodestring8": b"\x03" + bytes(7) + b"a\xc3\xa9",
    "long1": b"\x02\x00\xff",
    "long4": b"\x02\x00\x00\x00\x00\xff",
}


def numeral(line: bytes) -> Optional[int]:
    """An int, or a bool if it is spelled as one."""
    return (
        {b"00": False, b"01": True}.get(line) if line in (b"00", b"01") else int(line.rstrip(b"L"))
    )


# How `pickletools` reads the bytes of a line or a payload.
VALUES: Dict[str, Callable[[bytes], object]] = {
    "decimalnl_short": numeral,
    "decimalnl_long": numeral,
    "float8": lambda payload: struct.unpack(">d", payload)[0],
    "floatnl": float,
    "stringnl": lambda line: ast.literal_eval(line.decode("ascii")),
    "stringnl_noescape": lambda line: line.decode("ascii"),
    "unicodestringnl": lambda line: line.decode("raw-unicode-escape"),
    "string1": lambda payload: payload.decode("latin-1"),
    "string4": lambda payload: payload.decode("latin-1"),
    "bytes1": bytes,
    "bytes4": bytes,
    "bytes8": bytes,
    "bytearray8": bytearray,
    "unicodestring1": lambda payload: payload.decode("utf-8"),
    "unicodestring4": lambda payload: payload.decode("utf-8"),
    "unicodestring8": lambda payload: payload.decode("utf-8"),
    "long1": pickle.decode_long,
    "long4": pickle.decode_long,
}


def quoted(text: str) -> Any:
    """The bytes between double quotes."""
    return ast.literal_eval("b" + text)


def value(kind: str, text: str) -> object:
    """The value of a printed argument."""
    if kind == "stringnl_noescape_pair":
        return " ".join(quoted(part).decode("ascii") for part in text.split(" "))
    if text.startswith("<"):
        return VALUES[kind](bytes.fromhex(text[1:-1]))
    if text.startswith('"'):
        return VALUES[kind](quoted(text))
    return int(text)


def listed(folder: pathlib.Path, data: bytes) -> List[str]:
    """The lines of `pktool dis` for these bytes."""
    path = folder / "file.pickle"
    path.write_bytes(data)
    said = subprocess.run([TOOL, "dis", path], capture_output=True, text=True)
    return said.stdout.splitlines()


def is_right(opcode: pickletools.OpcodeInfo, folder: pathlib.Path) -> bool:
    """Whether the line of the opcode, after a MARK and a NONE, says what `pickletools` says."""
    data = (
        b"(N"
        + opcode.code.encode("latin-1")
        + (SPELLINGS[opcode.arg.name] if opcode.arg else b"")
        + b"."
    )
    their_opcode, argument, at = list(pickletools.genops(data))[2]
    line = listed(folder, data)[2]
    if opcode.name in ("EXT1", "EXT2", "EXT4"):
        return line == "no at 2: ExtensionCode"
    front = f"{at:5}: {ord(their_opcode.code):02x}   {their_opcode.name}"
    if opcode.arg is None:
        return line == front
    printed = value(opcode.arg.name, line[len(front) + 1 :])
    return line.startswith(front + " ") and type(printed) is type(argument) and printed == argument


def main() -> None:
    with tempfile.TemporaryDirectory() as folder:
        wrong = [
            opcode.name
            for opcode in pickletools.opcodes
            if not is_right(opcode, pathlib.Path(folder))
        ]
    for name in wrong:
        print(f"{name}: the line is not what pickletools says")
    print(f"{len(pickletools.opcodes) - len(wrong)} passed, {len(wrong)} failed")
    sys.exit(1 if wrong else 0)


if __name__ == "__main__":
    main()

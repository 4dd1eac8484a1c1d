"""What to do about a refusal: a hint in one sentence. Imported when a pickle is refused.

A hint is read from the refused instruction. It decides nothing, and is empty where nothing certain
can be said.
"""

from __future__ import annotations

import re
from typing import Callable, Dict, Tuple

from ._answers import Verdict
from ._cost_words import CHANGES
from ._limits import Limits
from ._reasons import Reason

_LOOKED_AT = 1 << 16
"""The number of bytes of an instruction that are looked at."""

_COUNTS = {b"T": 4, b"U": 1, b"X": 4, b"\x8a": 1, b"\x8b": 4, b"\x8c": 1, b"\x8d": 8}
"""The size of the count before a payload that is held, by opcode."""
_SKIPPED = {b"B": 4, b"C": 1, b"\x8e": 8, b"\x96": 8}
"""The same of a payload that is skipped."""
_TEXTS = (b"X", b"\x8c", b"\x8d")
_LINES = (b"F", b"I", b"L", b"P", b"S", b"V", b"c", b"g", b"i")
_SURROGATE = re.compile(rb"\xed[\xa0-\xbf]")
_ESCAPED_SURROGATE = re.compile(rb"\\(?:u|U0000)[dD][89a-fA-F]")
_LARGEST = {"counted": 16_777_216, "stack": 1_000_000, "memo": 1_000_000}

_OTHERS = [
    (rb"gA[JNSW]", "base64 of a pickle: decode them first"),
    (rb"\x1f\x8b", "gzip data: decompress them first"),
    (rb"\x78[\x01\x5e\x9c\xda]", "zlib data: decompress them first"),
    (rb"BZh", "bzip2 data: decompress them first"),
    (rb"\xfd7zXZ", "xz data: decompress them first"),
    (rb"PK\x03\x04", "a ZIP archive: `storklocker scan` looks inside"),
    (rb"\x93NUMPY", "an array of NumPy: `storklocker scan` looks inside"),
    (rb"\x89HDF", "HDF5 data"),
    (rb"\s*[\[{\"]", "JSON or another text"),
]
_COSTS = {
    Reason.DeepKey: {"levels": "a key has more levels of tuples than"},
    Reason.HeavyKeys: {"weight": "a key weighs more than", "work": "all keys weigh more than"},
    Reason.ManyKeys: {"clash": "keys that can be made to collide weigh more than"},
    Reason.MuchMemory: {"memory": "loading takes more bytes than"},
}
"""What a pickle exceeds, by the limits that its reason may be of."""
_NO_PICKLE = (
    Reason.UnknownOpcode,
    Reason.MissingItem,
    Reason.MissingMark,
    Reason.MissingMemo,
)
_CUT = (Reason.Truncated, Reason.BadArgument, Reason.TooLarge)
"""Why the first instruction of a text may not be complete: its words are read as a count."""
_TEXT = re.compile(rb"[\t\n\r\x20-\x7e]{5}[^\x00-\x08\x0b\x0c\x0e-\x1f\x7f]*")
_OBJECT_OF_TEXT = re.compile(rb"S['\"]|[FIL][-0-9]|[VPc]")
"""How a pickle begins whose first instruction is a line of text."""


def hint_of(
    verdict: Verdict,
    read: Callable[[int, int], bytes],
    limits: Limits,
    start: int = 0,
    has_substitutes: bool = False,
) -> str:
    """The hint for a refusal under these limits, or an empty text. `read(at, count)` returns bytes
    of what was checked, of which the verdict counts the first as `start`. `has_substitutes` says
    that the list has names that are loaded through substitutes.
    """
    at, front = verdict.at - start, read(0, 8)
    for pattern, what in _OTHERS:
        if re.match(pattern, front):
            return f"these bytes aren't a pickle, but look like {what}"
    if at == 0 and (verdict.reason in _NO_PICKLE or not front):
        return "these bytes aren't a pickle" if front else "there are no bytes"
    if at == 0 and verdict.reason in _CUT and _looks_like_text(read(0, 64)):
        return "these bytes look like text, not a pickle"
    if verdict.reason is Reason.TooLarge:
        return _of_limit(read(at, 32), limits)
    if verdict.reason is Reason.BadArgument:
        return _of_argument(read(at, _LOOKED_AT))
    if verdict.reason in _COSTS:
        return _of_costs(_COSTS[verdict.reason], limits)
    if verdict.reason is Reason.BuildsImport:
        permits = "no guard of a list with substitutes" if has_substitutes else 'build="any"'
        return f"{CHANGES}: {permits} permits it"
    if verdict.reason is Reason.NotAscii:
        return 'old_strings="bytes" reads such strings as bytes'
    return ""


def _looks_like_text(front: bytes) -> bool:
    return bool(_TEXT.fullmatch(front)) and not _OBJECT_OF_TEXT.match(front)


def _of_costs(asked: Dict[str, str], limits: Limits) -> str:
    held = {name: getattr(limits, name) for name in asked}
    what = [
        f"{words} the limit {name}, {held[name]:,}"
        for name, words in asked.items()
        if held[name] is not None
    ]
    named = ", ".join(f"{name}=.." for name in asked if held[name] is not None)
    return f"{', or '.join(what)}: Limits({named}), or [limits] of a list file, raises it"


def _of_argument(instruction: bytes) -> str:
    code = instruction[:1]
    if code in (b"c", b"i"):
        names = b"\n".join(instruction[1:].split(b"\n", 2)[:2])
        if not names.isascii():
            return "a name beyond ASCII needs protocol 4 or later: pickle it with that"
    elif code in _TEXTS:
        count = _COUNTS[code]
        length = int.from_bytes(instruction[1 : 1 + count], "little")
        if _SURROGATE.search(instruction[1 + count : 1 + count + length]):
            return "the text has a lone surrogate, which is no character of UTF-8"
    elif code == b"V" and _ESCAPED_SURROGATE.search(instruction.partition(b"\n")[0]):
        return "the text has a lone surrogate, which is no character"
    return ""


def _of_limit(instruction: bytes, limits: Limits) -> str:
    code = instruction[:1]
    for name, counts in (("counted", _COUNTS), ("passed", _SKIPPED)):
        if code in counts:
            length = int.from_bytes(instruction[1 : 1 + counts[code]], "little")
            if length <= getattr(limits, name):
                break
            what = f"a payload of {length:,} bytes is more than the limit {name}"
            return _raised(what, name, limits, length)
    is_number, number = _memo_number(code, instruction)
    if is_number and number > limits.numbers:
        what = f"memo number {number:,} is above the limit numbers"
        return _raised(what, "numbers", limits, number)
    if is_number or code == b"\x94":
        what = "the pickle has more memo entries than the limit memo"
        return _raised(what, "memo", limits, limits.memo + 1)
    if code in _LINES:
        return "its line is longer than any that a check reads; no limit raises that"
    what = "the pickle has more stack entries than the limit stack"
    return _raised(what, "stack", limits, limits.stack + 1)


def _memo_number(code: bytes, instruction: bytes) -> Tuple[bool, int]:
    """Whether an instruction names a memo number that it writes to, and that number."""
    if code == b"p":
        digits = instruction[1:].partition(b"\n")[0]
        return digits.isdigit(), int(digits) if digits.isdigit() else 0
    size = {b"q": 1, b"r": 4}.get(code, 0)
    return size > 0, int.from_bytes(instruction[1 : 1 + size], "little")


def _raised(what: str, name: str, limits: Limits, wanted: int) -> str:
    """Says which limit was passed, and what raises it."""
    words = f"{name}={wanted}"
    if wanted > _LARGEST.get(name, wanted):
        words = "large=True"
    file = words.replace("=", " = ").replace("True", "true")
    held = getattr(limits, name)
    return f"{what}, {held:,}: Limits({words}) raises it, or {file} below [limits] of a list file"

"""Values that are spelled in letters: by Base64, as Django's caches and sessions have them, by
Base16, 32 or 85, or with a character for each byte.
"""

from __future__ import annotations

import base64
import binascii
import pickletools
import re
import urllib.parse
from typing import Callable, Dict, FrozenSet, Iterator, List, Pattern, Tuple

from .._storklocker import runs

_LETTERS = b"ABCDEFGHIJKLMNOPQRSTUVWXYZabcdefghijklmnopqrstuvwxyz0123456789+/"
_ANY, _STRAY = rb"[A-Za-z0-9+/_-]", rb"[^A-Za-z0-9+/]*"
_STANDARD = bytes.maketrans(b"-_", b"+/")
"""The alphabet for addresses has `-` and `_`."""
_BITS = 6
"""Those of a letter."""
_PROTO = 0x80
_PROTOCOLS = tuple(bytes((_PROTO, number)) for number in range(6))
_OPENING = {ord(it.code) for it in pickletools.opcodes if not it.stack_before} | {ord("i")}
"""The instructions with which a pickle may begin."""
ZLIB_FRONTS = tuple(
    bytes((first, second))
    for first in range(0x08, 0x80, 0x10)
    for second in range(256)
    if (first << 8 | second) % 31 == 0 and not second & 0x20
)
"""How what zlib packs may begin, with a window of any size."""
_STREAMS = (*ZLIB_FRONTS, b"\x1f\x8b\x08", b"BZh", b"\xfd7zXZ", b"]\0\0")


def _spelled(front: bytes, between: bytes) -> bytes:
    """A pattern of the letters that spell these bytes and anything behind them."""
    number, bits = int.from_bytes(front, "big"), 8 * len(front)
    found: List[bytes] = []
    while bits > 0:
        bits -= _BITS
        first = (number >> bits if bits > 0 else number << -bits) & (1 << _BITS) - 1
        letters = _LETTERS[first : first + (1 << max(0, -bits))]
        letters += b"-" * (b"+" in letters) + b"_" * (b"/" in letters)
        found.append(b"[%b]" % re.escape(letters))
    return between.join(found)


def _fronts(between: bytes) -> bytes:
    """A pattern of the letters with which Base64 may begin, and of what may stand between them."""
    fronts = (*_PROTOCOLS, *(bytes([it]) for it in _OPENING - {_PROTO}), *_STREAMS)
    by_letter: Dict[bytes, Dict[bytes, None]] = {}
    for front in fronts:
        first, _, rest = _spelled(front, b"\n").partition(b"\n")
        by_letter.setdefault(first, {})[rest.replace(b"\n", between)] = None
    groups = (it + between + b"(?:%b)" % b"|".join(more) for it, more in by_letter.items())
    return b"|".join(groups)


_DIGIT = b"[0-9A-Fa-f]"
_HEX = b"0123456789abcdefABCDEF"
_DIGITS = re.compile(rb"(?:\s*%b){4}" % (_DIGIT * 2))
_SIGNED = re.compile(rb"[0-9a-f]{32,128}:")
"""What stands in front of a pickle in a session of Django before 3.1."""
_OF_DIGITS = rb"(?:[MNOYZ][2DGTWjmz]%b{2}){9}" % _ANY
"""Digits of Base16, in Base64."""
_LETTER, _FRONT = re.compile(rb"[A-Za-z0-9+/]"), re.compile(_fronts(_STRAY))
_RUN_FRONT = re.compile(rb"%b|%b|80(?:0[0-5])%b" % (_fronts(b""), _OF_DIGITS, _DIGIT * 9))
"""Base64 that stands in a text, or digits of PROTO and more."""
_FRONTS = (*_PROTOCOLS, *_STREAMS, b"c", b"(")
"""How a pickle begins, if most do, and what is packed."""
_Read = Callable[[bytes], bytes]


def _heads(letters: bytes, base: int, width: int, count: int) -> FrozenSet[bytes]:
    """The first letters, so many, of what begins like a pickle or packed, if so many bytes are
    digits to a base.
    """
    digits, found = 1, set()
    while base**digits < 1 << 8 * width:
        digits += 1
    for front in _FRONTS:
        ends = (int.from_bytes(front[:width].ljust(width, it), "big") for it in (b"\0", b"\xff"))
        first, last = (it // base ** (digits - count) for it in ends)
        for number in range(first, last + 1):
            places = (number // base**place % base for place in reversed(range(count)))
            found.add(bytes(letters[it] for it in places))
    return frozenset(found)


def _base32_of_hex(data: bytes) -> bytes:
    return base64.b32decode(data.translate(_BASE32_OF_HEX))


def _ascii85(data: bytes) -> bytes:
    return base64.a85decode(data, adobe=data.startswith(b"<~"))


_DIGITS32, _DIGITS85 = b"0123456789ABCDEFGHIJKLMNOPQRSTUV", bytes(range(33, 33 + 85))
_LETTERS32 = b"ABCDEFGHIJKLMNOPQRSTUVWXYZ234567"
_LETTERS85 = b"0123456789" + _LETTERS[:26] + _LETTERS[26:52] + b"!#$%&()*+-;<=>?@^_`{|}~"
_BASE32_OF_HEX = bytes.maketrans(_DIGITS32, _LETTERS32)
_OTHERS: Tuple[Tuple[FrozenSet[bytes], int, _Read], ...] = (
    (_heads(_LETTERS32, 32, 5, 3), 3, lambda data: base64.b32decode(data, True)),
    (_heads(_LETTERS32.lower(), 32, 5, 3), 3, lambda data: base64.b32decode(data, True)),
    (_heads(_DIGITS32, 32, 5, 3), 3, _base32_of_hex),
    (_heads(_LETTERS85, 85, 4, 2), 2, base64.b85decode),
    (_heads(_DIGITS85, 85, 4, 2), 2, _ascii85),
    (frozenset(b"<~" + it for it in _heads(_DIGITS85, 85, 4, 2)), 4, _ascii85),
)
"""Other ways in which all of a value may be spelled: its first letters, and what reads it."""
_HEADS = frozenset(head[:2] for heads, _, _ in _OTHERS for head in heads)
_ESCAPES: Tuple[Tuple[Pattern[bytes], _Read], ...] = (
    (re.compile(rb"[^=]{0,16}=(?:\r?\n)?[0-9A-Fa-f]{2}"), binascii.a2b_qp),
    (re.compile(rb"[^%]{0,16}%[0-9A-Fa-f]{2}"), urllib.parse.unquote_to_bytes),
)
"""Ways in which some bytes are escaped: how the first are, and what reads them."""
_ESCAPING = re.compile(rb".{0,16}?[=%]", re.DOTALL)
_LONG = re.compile(rb"%b{16}" % _ANY)
_LEAST = 16
_IS_LETTER = bytes(re.match(_ANY, bytes([it])) is not None for it in range(256))
"""The fewest letters of a run; and of each byte, whether it is one."""
_WHOLE = re.compile(rb"[A-Za-z0-9+/_\r\n-]{8,}={0,2}\s*")
"""Nothing but Base64, in which Base64 may be packed again."""
_NO_TEXT, _SOON = re.compile(rb"[\0-\x08\x0e-\x1f\x7f]"), 256
"""What no text has, which other values have soon."""
_BYTES = re.compile(rb"\xc2[\x80-\x98]")
"""An instruction from PROTO on, in a text with a character for each byte: no other text has it."""


def may_begin(data: bytes, at: int, end: int) -> bool:
    """Whether a value may be spelled from its first letter on. Between the letters of Base64 other
    bytes may stand: Python passes over these.
    """
    first = _LETTER.search(data, at, end)
    if first is None:
        return False
    if first.start() == at and _LONG.match(data, at, end):
        return True
    return _FRONT.match(data, first.start(), end) is not None or (
        data[first.start()] in _HEX and _DIGITS.match(data, at, end) is not None
    )


def may_hold(data: bytes, at: int, end: int) -> bool:
    """Whether a pickle may be spelled in a text."""
    if _BYTES.search(data, at, end):
        return True
    if _NO_TEXT.search(data, at, min(end, at + _SOON)):
        return False
    return any(True for _ in runs_in(data[at:end]))


def runs_in(
    data: bytes, end: int = 1 << 62, passed: Tuple[List[int], List[int]] = ([], [])
) -> Iterator[Tuple[int, bytes]]:
    """The letters that may spell a pickle and begin in front of an end, and where they begin.

    passed: where the parts begin and end that are passed over.
    """
    for at, behind in zip(*runs(data, _IS_LETTER, _LEAST, *passed)):
        if at >= end:
            break
        if _RUN_FRONT.match(data, at):
            padded = data[behind : behind + 2]
            yield at, data[at : behind + len(padded) - len(padded.lstrip(b"="))]


def is_whole(data: bytes) -> bool:
    """Whether nothing but Base64 is in a value."""
    return _WHOLE.fullmatch(data) is not None


def of_letters(data: bytes, is_text: bool) -> Iterator[bytes]:
    """What readers may make of a value: also of a part of it if it is a text."""
    texts: Dict[bytes, None] = {}
    if may_begin(data, 0, len(data)) or is_whole(data):
        texts[data] = None
    if is_text:
        texts.update((run, None) for _, run in runs_in(data))
    for text in texts:
        for made in of_base64(text):
            signed = _SIGNED.match(made)
            yield made[signed.end() :] if signed else made
    yield from _of_base16(data)
    yield from of_others(data)
    if _BYTES.search(data):
        try:
            yield data.decode().encode("latin-1")
        except UnicodeError:
            pass


def of_base64(text: bytes) -> Iterator[bytes]:
    """What Python makes of Base64 in either alphabet. It passes over other bytes, and over all
    behind the end; who lacks padding adds some.
    """
    for letters in dict.fromkeys((text, text.translate(_STANDARD))):
        for padded in (letters + b"===", letters.rstrip(b"=\r\n")[:-1] + b"==="):
            try:
                yield binascii.a2b_base64(padded)
                break
            except binascii.Error:
                continue


def of_others(data: bytes) -> Iterator[bytes]:
    """What Base32, Base85, quoted-printable and their like make of a value, if it may be a pickle
    or packed.
    """
    text = data.strip()
    reads: List[_Read] = []  # (most values have none, which few looks show)
    if text[:2] in _HEADS:
        reads += [read for heads, count, read in _OTHERS if text[:count] in heads]
    if _ESCAPING.match(data):
        reads += [read for begun, read in _ESCAPES if begun.match(data)]
    for read in reads:
        try:
            made = read(text)
        except ValueError:
            continue
        if made.startswith(_FRONTS):
            yield made


def _of_base16(data: bytes) -> Iterator[bytes]:
    """What pairs of digits are, between which spaces may stand."""
    digits = b"".join(data.split()) if _DIGITS.match(data) else b""
    if digits and not (len(digits) % 2 or digits.translate(None, _HEX)):
        yield binascii.unhexlify(digits)

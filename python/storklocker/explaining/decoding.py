"""What known functions answer that decode or unpack what is plain. Nothing else is called, and
nothing large comes of it.
"""

from __future__ import annotations

import ast
import base64
import binascii
import codecs
import functools
import html
import json
import quopri
import re
import urllib.parse
import zlib
from encodings.aliases import aliases
from typing import Any, Callable, Dict, FrozenSet

from ..scanning.unpacking import bzip2
from .values import Large, Unknown

LARGEST = 1 << 22
"""The most bytes that something is unpacked or joined to."""
_SLOW, _WEIGHT, _ROOM, _QUADRATIC = 1 << 17, 32, 1 << 27, 1000
"""The most bytes that Python itself decodes, how much slower that is, the most memory of a decoder,
and the most bytes of what takes the square of their number.
"""
_PACKINGS: Dict[str, str] = {
    "zlib": "zlib.decompress", "zlibcodec": "zlib.decompress", "zip": "zlib.decompress",
    "bz2": "bz2.decompress", "bz2codec": "bz2.decompress",
}
_SQUARES = frozenset(("idna", "punycode"))
_LITERAL = re.compile(
    r"\s*[bBrRuU]{0,2}(?:'(?:[^'\\\n]|\\[^\n])*'|\"(?:[^\"\\\n]|\\[^\n])*\")\s*"
)


def unpacked(make: Callable[[], Any]) -> Callable[..., Any]:
    """What unpacks by an object that this makes."""

    def unpack(data: bytes, *_: Any) -> Any:
        return small(make().decompress(data, LARGEST + 1))

    return unpack


def lzma_unpacker() -> Any:
    """What unpacks xz and LZMA."""
    import lzma  # (some Pythons lack it)

    return lzma.LZMADecompressor(memlimit=_ROOM)


def unzipped(data: bytes, bits: int = 15, *_: Any) -> Any:
    """What `zlib.decompress` answers."""
    return small(zlib.decompressobj(bits).decompress(data, LARGEST + 1))


def small(found: Any) -> Any:
    """What isn't large."""
    if len(found) > LARGEST:
        raise Large
    return found


def slow(decode: Callable[..., Any]) -> Callable[..., Any]:
    """A decoder in Python, for what is short."""

    def decoded_slowly(data: Any, *words: Any) -> Any:
        if len(data) > _SLOW:
            raise Unknown
        return decode(data, *words)

    return decoded_slowly


@functools.lru_cache(maxsize=None)
def _codings() -> FrozenSet[str]:
    """The names of Python's codecs, as `_plain` writes them."""
    more = "utf_8_sig unicode_escape raw_unicode_escape idna punycode".split()
    return frozenset(map(_plain, (*aliases, *aliases.values(), *more)))


def _plain(coding: str) -> str:
    return coding.lower().replace("-", "").replace("_", "").replace(" ", "")


def _known(data: Any, coding: str) -> str:
    """The name of a codec that may be called."""
    name = _plain(coding)
    if name not in _codings() or len(data) > (_QUADRATIC if name in _SQUARES else LARGEST):
        raise Unknown
    return name


def decoded(data: Any, coding: str = "utf-8", *_: Any) -> Any:
    """What `codecs.decode` answers, and the methods of bytes and texts."""
    name = _known(data, coding)
    return DECODERS[_PACKINGS[name]](data) if name in _PACKINGS else codecs.decode(data, coding)


def encoded(data: Any, coding: str = "utf-8", *_: Any) -> Any:
    """What `codecs.encode` answers, and the methods of texts."""
    if _known(data, coding) in _PACKINGS:
        raise Unknown
    return codecs.encode(data, coding)


def _literal(text: Any) -> Any:
    """A text or bytes as Python writes them; no more, for hostile ones crash its parser."""
    text = text.decode() if type(text) is bytes else text
    if not _LITERAL.fullmatch(text):
        raise Unknown
    return ast.literal_eval(text.strip())


def _by_lines(data: bytes) -> bytes:
    return b"".join(map(binascii.a2b_uu, data.splitlines()))


_IN_PYTHON: Dict[str, Callable[..., Any]] = {
    "base64.b32decode": base64.b32decode, "base64.b85decode": base64.b85decode,
    "base64.a85decode": base64.a85decode, "html.unescape": html.unescape,
    "urllib.parse.unquote": urllib.parse.unquote,
    "urllib.parse.unquote_plus": urllib.parse.unquote_plus,
    "urllib.parse.unquote_to_bytes": urllib.parse.unquote_to_bytes, "json.loads": json.loads,
}
"""Decoders that Python itself runs, or that build many objects."""
if hasattr(base64, "b32hexdecode"):  # (since 3.10)
    _IN_PYTHON["base64.b32hexdecode"] = base64.b32hexdecode
DECODERS: Dict[str, Callable[..., Any]] = {
    "base64.b64decode": base64.b64decode, "base64.standard_b64decode": base64.standard_b64decode,
    "base64.urlsafe_b64decode": base64.urlsafe_b64decode, "base64.b16decode": base64.b16decode,
    "base64.decodebytes": base64.decodebytes, "binascii.unhexlify": binascii.unhexlify,
    "base64.decodestring": base64.decodebytes, "base64.encodebytes": base64.encodebytes,
    "base64.b64encode": base64.b64encode, "binascii.hexlify": binascii.hexlify,
    "binascii.a2b_hex": binascii.unhexlify, "binascii.a2b_base64": binascii.a2b_base64,
    "binascii.a2b_uu": _by_lines, "binascii.a2b_qp": binascii.a2b_qp,
    "quopri.decodestring": quopri.decodestring, "ast.literal_eval": _literal,
    "zlib.decompress": unzipped, "gzip.decompress": unpacked(lambda: zlib.decompressobj(31)),
    "bz2.decompress": unpacked(bzip2), "lzma.decompress": unpacked(lzma_unpacker),
    "codecs.decode": decoded, "codecs.encode": encoded,
    "codecs.escape_decode": codecs.escape_decode, "codecs.latin_1_encode": codecs.latin_1_encode,
    "codecs.utf_8_decode": codecs.utf_8_decode, "codecs.utf_8_encode": codecs.utf_8_encode,
    "codecs.latin_1_decode": codecs.latin_1_decode, "codecs.ascii_decode": codecs.ascii_decode,
    **{name: slow(decode) for name, decode in _IN_PYTHON.items()},
}
"""Functions by their names, without the underscores in front of modules."""


def weight_of(name: str) -> int:
    """How many bytes it costs to decode one by this function."""
    return _WEIGHT if name in _IN_PYTHON else 1

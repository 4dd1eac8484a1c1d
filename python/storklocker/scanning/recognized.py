"""What a file is in which no reading finds a pickle: known to hold none, or not known."""

from __future__ import annotations

import json
import re
from typing import Any, Dict, List, Optional, Tuple

from .severity import UNRECOGNIZED
from .source import Source

_HEADER = 100_000_000

RECOGNIZED: Tuple[Tuple[bytes, str], ...] = (
    (rb"\x89PNG\r\n\x1a\n", "PNG"), (rb"\xff\xd8\xff", "JPEG"), (rb"GIF8[79]a", "GIF"),
    (rb"RIFF.{4}(?:WEBP|WAVE|AVI )", "RIFF"), (rb"II\*\0|MM\0\*", "TIFF"), (rb"%PDF-1\.", "PDF"),
    (rb"\x7fELF[\x01\x02][\x01\x02]\x01", "ELF"),
    (rb"\xca\xfe\xba\xbe\0", "a class of Java, or Mach-O"),
    (rb"[\xcf\xce]\xfa\xed\xfe", "Mach-O"), (rb"OTTO|\0\x01\0\0\0[\x01-\x40]|wOF[F2]", "a font"),
    (rb"OggS\0", "Ogg"), (rb"fLaC\0", "FLAC"), (rb"ID3[\2-\4]", "MP3"), (rb".{4}ftyp", "MP4"),
    (rb"\xde\x12\x04\x95|\x95\x04\x12\xde", "a catalog of gettext"), (rb"!<arch>\n", "ar"),
    (rb"\0asm\x01\0\0\0", "WebAssembly"), (rb"PACK\0\0\0[\2\3]|\xfftOc\0\0\0\x02", "a pack of git"),
)
"""How files begin that are known to hold no pickle, and what they are."""
_FRONTS = tuple((re.compile(begun, re.DOTALL), name) for begun, name in RECOGNIZED)
_WIDTHS: Dict[str, int] = {
    "F64": 8, "I64": 8, "U64": 8, "C64": 8, "F32": 4, "I32": 4, "U32": 4, "F16": 2, "BF16": 2,
    "I16": 2, "U16": 2, "I8": 1, "U8": 1, "BOOL": 1, "F8_E4M3": 1, "F8_E5M2": 1, "F8_E8M0": 1,
}
"""The bytes of each type of safetensors."""


def is_text(front: bytes) -> bool:
    """Whether these first bytes of a file are printable text."""
    if _CONTROL.search(front, 0, _SOON):
        return False
    text = front.decode("utf-8", "ignore").translate(_WHITE)
    return text.isprintable() and 2 * len(text) >= len(front)


_WHITE = {ord(white): " " for white in "\n\r\t\f"}
_CONTROL, _SOON = re.compile(rb"[\0-\x08\x0b\x0e-\x1f\x7f]"), 256
"""What no text has, which pickles of protocol 2 and later have soon. Decoding takes longer."""


def name_of(source: Source) -> str:
    """What a file without a pickle is; `UNRECOGNIZED` if nobody knows."""
    front = source.front()
    if not front:
        return "empty"
    if is_text(front):
        return "text"
    for begun, name in _FRONTS:
        if begun.match(front):
            return name
    if not front.strip(b"\0") and len(front) == source.size:
        return "zeros"
    return "safetensors" if is_safetensors(source) else UNRECOGNIZED


def is_safetensors(source: Source) -> bool:
    """Whether it is a file of safetensors with a right header, whose tensors fill the rest."""
    length = int.from_bytes(source.read(0, 8), "little")
    if not 2 <= length <= min(_HEADER, source.size - 8) or source.read(8, 1) != b"{":
        return False
    try:
        header: Any = json.loads(source.read(8, length), object_pairs_hook=_once)
    except (ValueError, RecursionError):
        return False
    if not isinstance(header, dict):
        return False
    header.pop("__metadata__", None)
    parts = [_part_of(it) for it in header.values()]
    end = 0
    for part in sorted(it or (-1, -1) for it in parts):
        if part[0] != end:
            return False
        end = part[1]
    return end == source.size - 8 - length


def _once(items: List[Tuple[str, Any]]) -> Dict[str, Any]:
    if len(dict(items)) != len(items):
        raise ValueError("a key twice")
    return dict(items)


def _part_of(tensor: Any) -> Optional[Tuple[int, int]]:
    """From where to where a tensor is; None if what says it is at fault."""
    if not isinstance(tensor, dict) or set(tensor) != {"dtype", "shape", "data_offsets"}:
        return None
    width, shape, offsets = tensor["dtype"], tensor["shape"], tensor["data_offsets"]
    lists = isinstance(shape, list) and isinstance(offsets, list) and len(offsets) == 2
    if not lists or not all(type(it) is int and it >= 0 for it in (*shape, *offsets)):
        return None
    count = _WIDTHS.get(width, 0) if isinstance(width, str) else 0
    for it in shape:
        count = min(count * it, 1 << 64)
    begin, end = offsets
    is_right = begin <= end and end - begin == count and isinstance(width, str) and width in _WIDTHS
    return (begin, end) if is_right else None

"""Formats whose readers run something that isn't a pickle, or pickles that aren't read here.

Each is told by its own bytes; by its name only where the name is what its reader goes by.
"""

from __future__ import annotations

import functools
import re
from typing import Callable, Dict, Iterable, Iterator, NamedTuple, Optional, Pattern, Tuple

from .budget import LOOKED_AT
from .marks import HDF5
from .source import BLOCK, Source

RUNS, HOLDS, UNREAD = "runs-code", "holds-code", "unread-pickles"
"""The kinds of findings: its reader runs it; it is code, which runs if somebody runs it; and it
holds pickles that aren't read here.
"""
_MOST_APART = 256
"""The most bytes of what is looked for."""


class Foreign(NamedTuple):
    """What such a file is, and why it matters."""

    kind: str
    finding: str
    why: str


class _Format(NamedTuple):
    """A format by its first bytes and, if not each such file is meant, by what it holds."""

    kind: str
    finding: str
    why: str
    front: bytes
    marks: Tuple[bytes, ...] = ()
    """One of these stands where `holding` matches: they are found much faster."""
    holding: Optional[bytes] = None
    is_json: bool = False
    """Whether it may spell what is looked for by escapes."""


# (a scan that meets none of these formats compiles none of them)
@functools.lru_cache(maxsize=None)
def _pattern(text: bytes) -> Pattern[bytes]:
    return re.compile(text, re.DOTALL | re.MULTILINE)


# Wide characters are read without their zeros. None begins like PROTO.
_JSON = rb"(?:\xef\xbb\xbf|\xff\xfe|\xfe\xff)?[\s\0]*[\[{]"
_TEXT = rb"[\0\t\n\r -~\xc2-\xff]"
_LAMBDA = (b"Lambda",), rb'"class_name"\s*:\s*"Lambda"'
_OPERATIONS = b"|".join(
    rb"\x12%c%b" % (len(name), name)
    for name in (b"ReadFile", b"WriteFile", b"PyFunc", b"PyFuncStateless", b"EagerPyFunc")
)
"""Operations of TensorFlow that read files, write them or call Python, as a node names its own."""

FORMATS = (
    _Format(
        "Python bytecode",
        HOLDS,
        "Python runs it when it is imported",
        # (flags of 3.7 and later, and the code behind a header of 8, 12 or 16 bytes)
        rb"..\r\n(?:[\0-\3]\0\0\0.{8}[\xe3c]|.{4}c\0\0\0|.{8}[\xe3c]\0\0\0)",
    ),
    _Format(
        "SequenceFile",
        UNREAD,
        "its values are compressed, and pickles if PySpark wrote it",
        rb"SEQ[\4-\6].{1,4}org\.apache\.hadoop\.io\..{0,200}org\.apache\.hadoop\.io\.compress",
    ),
    _Format(
        "GGUF",
        HOLDS,
        "chat programs run its template",
        rb"GGUF",
        (b"chat_template",),
        rb"tokenizer\.chat_template",
    ),
    _Format("HDF5", RUNS, "a layer of Keras is code", re.escape(HDF5), *_LAMBDA),
    _Format("Keras model", RUNS, "a layer of Keras is code", _JSON, *_LAMBDA, is_json=True),
    _Format(
        "TensorFlow model",
        RUNS,
        "its operations read or write files, or call Python",
        rb"\x08\x01\x12",
        (b"File", b"PyFunc"),
        _OPERATIONS,
    ),
    _Format(
        "jsonpickle",
        RUNS,
        "jsonpickle imports and calls what it names",
        _JSON,
        (b"py/",),
        rb'"py/(?:object|reduce|function|type|newargs(?:ex)?|initargs|repr|mod)"\s*:',
        is_json=True,
    ),
    _Format(
        "zarr",
        RUNS,
        "zarr loads its chunks, which are pickles",
        _JSON,
        (b"pickle",),
        rb'"(?:id|name)"\s*:\s*"(?:numcodecs\.)?pickle"',
        is_json=True,
    ),
    _Format(
        "YAML",
        RUNS,
        "a loader of YAML that isn't safe calls what its tags name",
        _TEXT,
        (b"python/", b"%TAG"),
        (
            rb"!(?:\w*!|<tag:yaml\.org,2002:)python/(?:object|name|module)"
            rb"|%TAG[ \t]+!\w*!?[ \t]+(?:tag:yaml\.org,2002:p|\S*%)"
        ),
    ),
    _Format(
        "MessagePack",
        RUNS,
        "msgpack-numpy loads its arrays of objects, which are pickles",
        # (a map of it alone is looked through)
        rb"(?![\x81-\x8f\xde].{0,9}(?:\xa2|\xc4\x02)nd\xc3)[\x81-\x9f\xc4-\xc9\xdc-\xdf]",
        (b"kind",),
        rb"(?:\xa4|\xc4\x04)kind(?:\xa1|\xc4\x01)O",
    ),
)
"""In the order in which they are told."""

NAMED: Dict[str, _Format] = {
    ".pth": _Format(
        "path file",
        RUNS,
        "Python runs these lines at each start",
        rb"[\t\n\f\r -~\x80-\xff]{4}",  # (no checkpoint begins so)
        (b"import",),
        rb"^import[ \t][^\r\n]{0,80}",
    ),
    ".onnx": _Format(
        "ONNX",
        RUNS,
        "its weights are read from outside its folder",
        rb"[\x08\x12\x3a]",
        (b"location",),
        rb"\x0a\x08location\x12.(?:[^\0-\x1f]{0,120}\.\.[/\\]|/|[A-Za-z]:[/\\])",
    ),
}
"""Formats by how the name ends, since their readers go by it."""

MEMBERS = {
    r"(?:.*/)?\.data/extern_modules": Foreign(
        "torch package", RUNS, "torch.package runs the modules in it"
    ),
    r"(?:.*/)?code/.*\.py": Foreign("TorchScript", HOLDS, "torch.jit.load compiles the code in it"),
}
"""Zip files, by the name of a member."""

_MEMBERS = {re.compile(name, re.DOTALL): it for name, it in MEMBERS.items()}


def foreign_of(path: str, source: Source, spend: Callable[[int], object]) -> Iterator[Foreign]:
    """What a file is besides what is read of it here; nothing for most files. A look is counted."""
    front, lowered = source.front(), path.lower()
    named = tuple(it for ending, it in NAMED.items() if lowered.endswith(ending))
    for it in named + FORMATS:  # (none of most files)
        if _pattern(it.front).match(front):
            yield from _told(it, source, spend)


def foreign_members(names: Iterable[str]) -> Iterator[Foreign]:
    """What a zip file is, by the names of its members."""
    left = dict(_MEMBERS)
    for name in names:
        for pattern in [it for it in left if it.fullmatch(name)]:
            yield left.pop(pattern)


def _told(it: _Format, source: Source, spend: Callable[[int], object]) -> Iterator[Foreign]:
    if it.holding is None:
        yield Foreign(it.kind, it.finding, it.why)
        return
    found = _first(it, _pattern(it.holding), source, spend)
    if found is not None:
        yield Foreign(it.kind, it.finding, f"{it.why}: {found}")


def _first(
    it: _Format, holding: Pattern[bytes], source: Source, spend: Callable[[int], object]
) -> Optional[str]:
    """The first place of what a format holds, as a text; None if it is nowhere."""
    at, kept = 0, b""
    while at < source.size:
        block = source.read(at, BLOCK)
        if not block:
            break
        spend(1 + len(block) // LOOKED_AT)
        at, data = at + len(block), kept + block
        kept = data[-_MOST_APART:]
        if b"\0" in data:
            data = data.translate(None, b"\0")
        if it.is_json and b"\\" in data:
            data = _ESCAPED.sub(_unescaped, data)
        if any(mark in data for mark in it.marks):
            found = holding.search(data)
            if found:
                return found.group().strip().decode("utf-8", "backslashreplace")
    return None


_ESCAPED = re.compile(rb"\\(?:u00([0-7][0-9a-fA-F])|(/))")


def _unescaped(found: "re.Match[bytes]") -> bytes:
    """What an escape of JSON stands for."""
    return found.group(2) or bytes([int(found.group(1), 16)])

"""Where the values of torch's distributed checkpoints are, as the file `.metadata` says.

torch loads that file, and then what each of its records names: a file, an offset and a length. So a
hostile record leads into the middle of a text, or into a file of any kind. The instructions are
followed here. What torch doesn't write is a fault, if it could be taken for a record: a class that
is called with arguments, a name that could make texts, a state that isn't shown.
"""

from __future__ import annotations

import re
from typing import Any, Callable, Dict, List, NamedTuple

from .following import Dict_, Follower, Global, Made, NotFollowed
from .places import PART
from .source import Source

_PACKAGES = ("torch.", "pathlib.")
_RECORD, _WITH_STATE = "_StorageInfo", "TensorProperties"
_ENUMERATIONS = ("MEM_FORMAT_ENCODING", "_MEM_FORMAT_ENCODING")
_CALLED = frozenset(
    (
        "BytesStorageMetadata", "ChunkStorageMetadata", "Metadata", "MetadataIndex", "StorageMeta",
        "TensorProperties", "TensorStorageMetadata", "Size", "device", "_get_layout", "PosixPath",
        "WindowsPath", "PurePosixPath", "PureWindowsPath", *_ENUMERATIONS,
    )
)
"""What torch's own `.metadata` makes objects of. No call of these returns a text or a dict."""
_GETATTR = ("builtins", "getattr")
_MEMBER = re.compile("[A-Z]+(_[A-Z]+)*")
_PATH, _OTHER_KEY = "relative_path", "transform_descriptors"
_KEYS = frozenset((_PATH, "offset", "length"))
_FILE = re.compile(r"[\w.-]+\.distcp", re.ASCII | re.IGNORECASE)


class Record(NamedTuple):
    """Where a value is."""

    file: str
    offset: int
    length: int


class Records(Follower):
    """Follows a `.metadata`."""

    def __init__(self, source: Source, tick: Callable[[int], object]) -> None:
        super().__init__(source, tick)
        self._found: List[Record] = []

    def found(self) -> List[Record]:
        """All records. Raises NotFollowed if others may be in it."""
        self._follow()
        return self._found

    def _hide(self, values: List[Any]) -> None:
        """The class of records goes nowhere but where one is made."""
        for value in values:
            if isinstance(value, Global) and value.pair[1] == _RECORD:
                raise NotFollowed("the class of records is used as torch never uses it")

    def _judge_global(self, module: str, name: str) -> None:
        is_its = f"{module}.".startswith(_PACKAGES) and "." not in name
        if not is_its and (module, name) != _GETATTR:
            raise NotFollowed(f"it imports {module[:80]}.{name[:80]}, as torch never does there")

    def _reduce(self, function: Any, words: Any) -> Any:
        self._hide([function, words])
        if function == Global(_GETATTR) and _is_member(words):
            return Made(_GETATTR, words)
        return self._new(function, words)

    def _new(self, made_by: Any, words: Any) -> Any:
        name = made_by.pair[1] if isinstance(made_by, Global) else ""
        if name != _RECORD and name not in _CALLED or name == _RECORD and words != ():
            raise NotFollowed(f"it calls {name[:80] or 'a hidden name'}, which torch never does")
        return Made(made_by.pair, words)

    def _build(self, made: Any, state: Any) -> None:
        if not isinstance(made, Made):
            raise NotFollowed("a state is set on an object to which torch gives none")
        items = state.items if isinstance(state, Dict_) else None
        if made.pair[1] == _RECORD:
            self._keep(made, items or {})
        elif items is None and not (made.pair[1] == _WITH_STATE and type(state) is tuple):
            raise NotFollowed("a state isn't as torch writes it")
        elif items is not None and any(it == _PATH or it[:2] == "__" for it in items):
            raise NotFollowed("an object is made to look like a record")

    def _keep(self, made: Made, items: Dict[str, Any]) -> None:
        """Keeps a record."""
        if made.is_built or not _KEYS <= items.keys() <= _KEYS | {_OTHER_KEY}:
            raise NotFollowed("a record isn't as torch writes it")
        made.is_built = True
        file, offset, length = (items[key] for key in (_PATH, "offset", "length"))
        if type(file) is not str or not _FILE.fullmatch(file):
            raise NotFollowed(f"a value is in {str(file)[:80]!r}, not in a {PART} beside it")
        if type(offset) is not int or type(length) is not int or min(offset, length) < 0:
            raise NotFollowed("the offset of a value isn't a number")
        self._found.append(Record(file, offset, length))


def _is_member(words: Any) -> bool:
    """Whether these are an enumeration of torch and the name of a member, as Python 3.11 writes it.
    """
    if type(words) is not tuple or len(words) != 2 or type(words[1]) is not str:
        return False
    is_enumeration = isinstance(words[0], Global) and words[0].pair[1] in _ENUMERATIONS
    return is_enumeration and _MEMBER.fullmatch(words[1]) is not None

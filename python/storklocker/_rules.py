"""What a guard goes by: a list and settings."""

from . import _names
from ._answers import Verdict
from ._limits import Limits, flag, number
from ._lists import AllowList, has_substitutes, settings_of
from ._storklocker import Loads, verdict

TYPE_CHECKING = False
if TYPE_CHECKING:
    from typing import Any, Callable, Dict, Optional, Tuple

    from ._refusal import Refusal

SETTINGS = (
    *("limits", "old_strings", "fix_imports", "on_refusal", "enforce", "max_bytes"),
    "build",
)
"""What a guard is given beside its list."""


class Rules(Loads):
    """A list and settings, and what they say of a pickle. Immutable."""

    __slots__ = (
        *("_allow", "_limits", "_old_strings", "_fix_imports", "_on_refusal", "_enforce"),
        *("_max_bytes", "_build", "_is_plain", "_has_substitutes", "_new", "_old"),
    )

    def __init__(self, allow: AllowList, given: "Dict[str, Any]") -> None:
        limits, old_strings, fix_imports, on_refusal, enforce, max_bytes, build = (
            given[name] for name in SETTINGS
        )
        applied = settings_of(allow, limits, old_strings, build)
        if on_refusal is not None and not callable(on_refusal):
            raise TypeError(f"on_refusal must be callable, not {on_refusal!r}")
        self._allow = allow
        self._limits: Optional[Limits] = limits
        self._old_strings: str = old_strings
        self._fix_imports = flag("fix_imports", fix_imports)
        self._on_refusal: Optional[Callable[[Refusal], Any]] = on_refusal
        self._enforce = flag("enforce", enforce)
        self._max_bytes = number("max_bytes", max_bytes)
        self._build: str = build
        self._has_substitutes = has_substitutes(allow)
        self._is_plain = not len(allow) and old_strings != "bytes"
        self._new = allow.for_loading().under(applied)
        self._old = allow.for_old_names().under(applied) if fix_imports else self._new

    @property
    def allow(self) -> AllowList:
        """The allow list."""
        return self._allow

    @property
    def enforce(self) -> bool:
        """Whether refused pickles stay unloaded."""
        return self._enforce

    @property
    def limits(self) -> "Optional[Limits]":
        """The limits beside those of the list."""
        return self._limits

    @property
    def old_strings(self) -> str:
        """How Python 2 strings are decoded."""
        return self._old_strings

    @property
    def fix_imports(self) -> bool:
        """Whether pickles of protocols 0 to 2 have the names of Python 2."""
        return self._fix_imports

    @property
    def on_refusal(self) -> "Optional[Callable[[Refusal], Any]]":
        """What is called with each refusal."""
        return self._on_refusal

    @property
    def max_bytes(self) -> int:
        """The most bytes that a `load` reads of one pickle."""
        return self._max_bytes

    @property
    def build(self) -> str:
        """The objects on which BUILD may set attributes, unless the list decides it."""
        return self._build

    @property
    def has_substitutes(self) -> bool:
        """Whether some names of the list are loaded through substitutes."""
        return self._has_substitutes

    @property
    def is_plain(self) -> bool:
        """Whether `pickle.loads` loads what is accepted, with nothing to judge."""
        return self._is_plain

    @property
    def settings(self) -> "Dict[str, Any]":
        """The arguments that make the same guard of a list."""
        return {name: getattr(self, f"_{name}") for name in SETTINGS}

    @property
    def takes_any(self) -> bool:
        """Whether BUILD may take what the pickle hasn't made."""
        return (self._allow.build or self._build) == "any" and not self._has_substitutes

    def has_old_names(self, data: bytes) -> bool:
        """Whether the pickle uses names of Python 2, as its first instruction decides."""
        return self._fix_imports and _names.are_old(data)

    def listed_for(self, data: bytes) -> AllowList:
        """The list that applies to a pickle."""
        return self.list_for(self.has_old_names(data))

    def list_for(self, is_old: bool) -> AllowList:
        """The list that applies to pickles with the names of Python 2, or of Python 3."""
        return self._old if is_old else self._new

    def judge(self, data: bytes) -> Verdict:
        """The verdict on the pickle at the front of `data`."""
        return verdict(data, self.listed_for(data) if type(data) is bytes else self._new, None)

    def decoding(self, encoding: "Optional[str]", errors: "Optional[str]") -> "Tuple[str, str]":
        """The encoding and errors for Python 2 strings: those of `old_strings`, or if that is
        unknown those of the caller.
        """
        if self._old_strings == "unknown":
            return (encoding or "ASCII", errors or "strict")
        held = "bytes" if self._old_strings == "bytes" else "ASCII"
        if encoding not in (None, held) or errors not in (None, "strict"):
            raise ValueError(
                f"old_strings={self._old_strings!r} requires encoding={held!r} "
                "and errors='strict'"
            )
        return (held, "strict")

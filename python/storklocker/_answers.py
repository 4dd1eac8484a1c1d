"""Verdicts of the checker, and the exceptions for refusals."""

import functools
import operator
import pickle

TYPE_CHECKING = False  # importing `typing` would take half the time of importing the package
if TYPE_CHECKING:
    from typing import Any, ClassVar, Dict, Iterable, List, Optional, Tuple, Type, TypeVar

    from ._reasons import Reason

    _Tuple = Tuple[Any, ...]
    _Own = TypeVar("_Own", bound="Named")
else:
    _Tuple = tuple


class Named(_Tuple):
    """A tuple with the fields that its subclass names in `__match_args__`. `namedtuple` compiles
    code for each class, which would take a tenth of the package's import.
    """

    __slots__ = ()
    _fields: "Tuple[str, ...]"

    def __init_subclass__(cls) -> None:
        if "__match_args__" in vars(cls):
            cls._fields = vars(cls)["__match_args__"]
            for place, field in enumerate(cls._fields):
                held = property(operator.itemgetter(place), doc=f"Field {place}, see the class.")
                setattr(cls, field, held)

    @classmethod
    def _make(cls: "Type[_Own]", values: "Iterable[Any]") -> "_Own":
        return tuple.__new__(cls, values)

    def _asdict(self) -> "Dict[str, Any]":
        return dict(zip(self._fields, self))

    def _replace(self: "_Own", **named: "Any") -> "_Own":
        return type(self)(**{**self._asdict(), **named})

    __replace__ = _replace

    def __repr__(self) -> str:
        fields = ", ".join([f"{name}={value!r}" for name, value in self._asdict().items()])
        return f"{type(self).__name__}({fields})"

    def __getnewargs__(self) -> "Tuple[Any, ...]":
        return tuple(self)


class Import(Named):
    """An import of a pickle. Both fields are None if the pickle doesn't reveal the pair."""

    __slots__ = ()
    __match_args__ = ("module", "name")

    module: "Optional[str]"
    name: "Optional[str]"

    def __new__(cls, module: "Optional[str]", name: "Optional[str]") -> "Import":
        return cls._make((module, name))


LIST_FAULTS = {
    1: "Syntax",
    2: "Shape(Version)",
    3: "Shape(TopKey)",
    4: "Shape(Imports)",
    5: "Shape(Module)",
    6: "Shape(Name)",
    7: "Version",
    8: "OutOfMemory",
    9: "Shape(Limits)",
    10: "Shape(LimitKey)",
    11: "Shape(Limit)",
    12: "Shape(Rules)",
    13: "Shape(RuleKey)",
    14: "Shape(Rule)",
    15: "Shape(Substitutes)",
    16: "Shape(Substitute)",
}

SHOWN = 64
"""The number of bytes of a name that the text of a refusal shows."""


class Verdict(Named):
    """The result of a check. It is true if the pickle is accepted.

        >>> verdict = storklocker.check(b"cos\\nsystem\\n.", storklocker.AllowList([]))
        >>> verdict.accepted, verdict.at, verdict.reason.name, verdict.pair
        (False, 0, 'ImportOffList', ('os', 'system'))

    `str` gives the line that the program prints.

    accepted: whether the pickle is accepted.
    taken: if accepted, the number of bytes, up to and including STOP.
    imports: if accepted, the number of imports. If refused, 0, except in the Refused that
        `storklocker.imports` raises, which has the number of imports before `at`.
    at: if refused, the offset of the refused instruction.
    reason: if refused, the Reason.
    number: the code byte of UnknownOpcode, the protocol of UnsupportedProtocol, or the memo number
        of MissingMemo.
    pair: the module and the name that ended the check, for ImportOffList.
    pickles: the number of accepted pickles; of a refused stream, those before the refused one.
    missing: each import off the list; `missing_is_cut` says whether some are left out.
    """

    __match_args__ = ("accepted", "taken", "imports", "at", "reason", "number", "pair", "pickles")

    accepted: bool
    taken: int
    imports: int
    at: int
    reason: "Optional[Reason]"
    number: "Optional[int]"
    pair: "Optional[Tuple[str, str]]"
    pickles: int
    _asked: "Tuple[Any, ...]" = ()
    """The arguments of the check, if it refused an import; `missing` needs them."""
    _missing: "Optional[Tuple[Import, ...]]" = None
    missing_is_cut: bool = False
    """Whether `missing` leaves some out, because the names take more than 64 MiB. Set by the first
    access to `missing`.
    """

    def __new__(
        cls,
        accepted: bool,
        taken: int = 0,
        imports: int = 0,
        at: int = 0,
        reason: "Optional[Reason]" = None,
        number: "Optional[int]" = None,
        pair: "Optional[Tuple[str, str]]" = None,
        pickles: int = 0,
    ) -> "Verdict":
        return cls._make((accepted, taken, imports, at, reason, number, pair, pickles))

    def __bool__(self) -> bool:
        return self.accepted

    def __str__(self) -> str:
        return self.line()

    @property
    def missing(self) -> "Tuple[Import, ...]":
        """Each import off the list, once, in order. Found on first access, in one pass.

            >>> storklocker.check(b"(ca\\nb\\ncc\\nd\\nl.", storklocker.AllowList([])).missing
            (Import(module='a', name='b'), Import(module='c', name='d'))

        If no list makes the pickle acceptable, these are the imports before its fault. For a
        stream, and in a copy made before the first access, it contains only `pair`. If the names
        take more than 64 MiB, it contains the first ones, and `missing_is_cut` is true.
        """
        asked = self._asked
        if self._missing is None:
            found: "List[Import]" = []
            if asked:
                data, allow, settings = asked
                found, self.missing_is_cut = allow.missing_in(data, settings)
            own = () if self.pair is None else (Import(*self.pair),)
            self._missing = tuple(found) or own
            self._asked = ()
        return self._missing

    def ask(self, data: bytes, allow: "Any") -> None:
        """Has `missing` check these bytes under a list by themselves."""
        self._asked = (data, allow, None)

    def __getstate__(self) -> "Optional[Dict[str, Any]]":
        # A copy keeps the imports that were found, but not the bytes.
        if not self._missing:
            return None
        return {"_missing": self._missing, "missing_is_cut": self.missing_is_cut}

    def line(self, most: "Optional[int]" = None) -> str:
        """The program's line. With `most`, a longer name is cut after that many bytes, followed by
        the number of bytes left out.
        """
        if self.accepted:
            return f"yes: {self.taken} bytes, {self.imports} imports"
        return f"no at {self.at}: {self._reason(most)}"

    def _reason(self, most: "Optional[int]") -> str:
        more = ""
        if self.number is not None:
            more = f"({self.number})"
        elif self.pair is not None:
            more = f"({printed(self.pair[0], most)},{printed(self.pair[1], most)})"
        return f"{self.reason.name if self.reason else ''}{more}"


class RowVerdict(Verdict):
    """The result of checking a stream of pickles."""

    def line(self, most: "Optional[int]" = None) -> str:
        """The program's line for a stream."""
        if self.accepted:
            return f"yes: {self.taken} bytes, {self.pickles} pickles, {self.imports} imports"
        return f"no in pickle {self.pickles} at {self.at}: {self._reason(most)}"


class Refused(pickle.UnpicklingError):
    """A pickle was refused, and none of it was loaded.

        >>> try:
        ...     storklocker.loads(b"cos\\nsystem\\n.", storklocker.AllowList([]))
        ... except storklocker.Refused as refused:
        ...     print(refused.at, refused.reason.name, refused.pair)
        0 ImportOffList ('os', 'system')

    `str` gives the program's line, with names cut after 64 bytes, what was being loaded, and a
    hint. It is built only on demand. `verdict`, `at`, `reason`, `number` and `pair` have the full
    data.
    """

    hint_for: "ClassVar[Any]"
    """What to do about a refused name. `storklocker/__init__.py` sets it: what is known of names is
    in a layer above.
    """

    if TYPE_CHECKING:  # without an `__init__` of its own the exception is faster to raise

        def __init__(self, verdict: Verdict, hint: str = "", origin: str = "") -> None: ...

    @property
    def verdict(self) -> Verdict:
        """The result of the check."""
        verdict: Verdict = self.args[0]
        return verdict

    @property
    def hint(self) -> str:
        """What to do about it, or an empty string."""
        hint: str = self.args[1] if len(self.args) > 1 else ""
        if not hint and self.pair is not None:
            hint = self.hint_for(self.pair)
        return hint

    @property
    def origin(self) -> str:
        """What was being loaded, from `storklocker.context`, or an empty string."""
        origin: str = self.args[2] if len(self.args) > 2 else ""
        return origin

    def __str__(self) -> str:
        origin = f"while loading {self.origin}" if self.origin else ""
        more = "; ".join(filter(None, (origin, self.hint)))
        return self.verdict.line(SHOWN) + (f" ({more})" if more else "")

    def __repr__(self) -> str:
        return f"{type(self).__name__}({str(self)!r})"

    @property
    def at(self) -> int:
        """The offset of the refused instruction."""
        return self.verdict.at

    @property
    def reason(self) -> "Optional[Reason]":
        """Why the pickle is refused."""
        return self.verdict.reason

    @property
    def number(self) -> "Optional[int]":
        """The number that the reason carries."""
        return self.verdict.number

    @property
    def pair(self) -> "Optional[Tuple[str, str]]":
        """The module and the name of an import off the list."""
        return self.verdict.pair


class MoreBytes(Refused):
    """The pickle is accepted, but more bytes follow it. Nothing was loaded.

        >>> storklocker.loads(b"N.N.", storklocker.AllowList([]))
        Traceback (most recent call last):
        storklocker._answers.MoreBytes: the pickle ends after 2 of 4 bytes

    `taken` is the length of the pickle, `length` that of all bytes.
    """

    if TYPE_CHECKING:

        def __init__(self, verdict: Verdict, length: int, origin: str = "") -> None: ...

    hint = ""

    def __str__(self) -> str:
        origin = f" (while loading {self.origin})" if self.origin else ""
        return f"the pickle ends after {self.taken} of {self.length} bytes{origin}"

    @property
    def length(self) -> int:
        """The length of all bytes."""
        length: int = self.args[1]
        return length

    @property
    def taken(self) -> int:
        """The length of the pickle."""
        return self.verdict.taken


class Misused(pickle.UnpicklingError):
    """The load of an accepted pickle was stopped, because it uses a listed name as no pickler
    does. What the pickle did before stays done: calls of listed names.

        >>> allow = storklocker.AllowList({"builtins": ["bytes"]})
        >>> storklocker.loads(b"cbuiltins\\nbytes\\n(I9\\ntR.", allow)
        Traceback (most recent call last):
        storklocker._answers.Misused: bytes is called with unexpected arguments
    """

    is_told = False
    """Whether it was reported to a guard's `on_refusal`."""
    is_reported = False
    """Whether it was reported to `storklocker.telemetry`."""


def told(value: "Any") -> str:
    """A value that a pickle has made, as a refusal shows it. What is in it isn't looked through:
    the text of a tuple that is doubled thirty times would be longer than the memory.
    """
    if type(value) is tuple and len(value) < 6:
        return f"({', '.join(map(_told_alone, value))})"
    return _told_alone(value)


def _told_alone(value: "Any") -> str:
    if type(value) in (str, bytes):
        return repr(value[:60])
    is_short = type(value) is int and value.bit_length() < 64
    if is_short or type(value) in (bool, float, type(None)) or isinstance(value, type):
        return f"{value!r:.60}"
    return f"an object of {type(value)!r:.60}"


class ListFault(ValueError):
    """A text is not a list file.

        >>> storklocker.AllowList.from_text("version = 2\\n[imports]\\nos = 'path'")
        Traceback (most recent call last):
        storklocker._answers.ListFault: list: Shape(Module) (line 3: write an array: os = ["path"])

    `fault` is the program's name for the reason, such as `Shape(Imports)`. `file` is the name of
    the file, `line` the line of the fault, counted from 1, and `hint` a sentence on what to write
    there. Unknown ones are empty, or 0. `str` gives the program's line and all of these.
    """

    def __init__(self, fault: str, file: str = "", line: int = 0, hint: str = "") -> None:
        super().__init__(fault, file, line, hint)
        self.fault, self.file, self.line, self.hint = fault, file, line, hint

    def __str__(self) -> str:
        where = [self.file] * bool(self.file) + [f"line {self.line}"] * bool(self.line)
        more = ": ".join([", ".join(where)] * bool(where) + [self.hint] * bool(self.hint))
        return f"list: {self.fault}" + (f" ({more})" if more else "")


@functools.lru_cache(maxsize=None)
def _shown_as() -> "Dict[int, str]":
    """The program's spelling of each byte in quotes."""
    return {
        byte: chr(byte) if 32 <= byte <= 126 and byte not in b'"\\' else f"\\x{byte:02x}"
        for byte in range(256)
    }


def printed(text: str, most: "Optional[int]" = None) -> str:
    """The text in quotes, as the program prints it, cut after `most` bytes."""
    data = text.encode()
    shown = data if most is None else data[:most]
    more = f" and {len(data) - len(shown)} more bytes" if len(shown) < len(data) else ""
    return '"' + shown.decode("latin-1").translate(_shown_as()) + '"' + more

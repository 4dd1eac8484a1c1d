"""Allow lists."""

import functools
import os
from types import MappingProxyType

from . import _names
from ._answers import LIST_FAULTS, ListFault
from ._limits import BUILDS, COSTS, OLD_STRINGS, Limits, least, limits_of, packed
from ._pairs import bytes_of, bytes_of_pair, encoded, is_pair, records, with_room
from ._storklocker import Pairs as _Pairs
from ._storklocker import list_told, pairs_of, read_list

TYPE_CHECKING = False
if TYPE_CHECKING:
    from typing import Any, Iterable, Iterator, List, Mapping, Optional, Tuple, Type, Union

    from ._answers import Import
    from ._meant import Meant
    from ._pairs import Item, Names, Pair
    from ._substitute import Substitute

STANDARD = Limits()


class AllowList(_Pairs):
    """The pairs of a module and a name that a pickle may import. Immutable.

        >>> allow = storklocker.AllowList({"collections": ["OrderedDict", "deque"]})
        >>> ("collections", "deque") in allow, ("os", "system") in allow
        (True, False)

    Other ways to create one:

        AllowList([("collections", "OrderedDict"), ("a.b", "C")])
        AllowList([Order, Color, resize])
        AllowList.from_file("list.toml")
        AllowList.shipped("torch", "pandas")

    It supports iteration in order, `in`, `len`, `|`, `==` and `hash`. It can be copied, pickled and
    shared by threads. Lookup takes logarithmic time, so a long list costs little.

    A pair permits only itself: `("os", "path")` doesn't permit `("os", "path.join")`. A class or a
    function stands for the pair by which a pickle names it. The pair of a class inside a class,
    such as `Shop.Color`, has a name with dots, which pickles of protocol 4 and later use.
    `storklocker.imports` of a pickle lists all that its objects need.

    substitutes: the functions that a guard loads in place of some names: see
        `storklocker.substitutes`.
    dangerous: pairs or dotted names that permit everything, such as "builtins.getattr", and that
        you list on purpose. A guard refuses a list with such a name if it has no substitute and
        isn't named here.
    limits: Limits that apply to every check under the list, as those of a list file do; or None.
        `Limits(levels=None, weight=None, work=None)` turns the limits on costs off.
    build: "made" or "any", the objects that BUILD may take in every check under the list; None
        leaves that to the check or the guard.
    """

    _pairs: "Tuple[Tuple[bytes, bytes], ...]"  # which C keeps, sorted
    # (PyPy gives the base class a `__weakref__`)
    __slots__ = (
        *("_limits", "_build", "_loaded", "_fixed", "kept", "_meant"),
        *(() if hasattr(_Pairs, "__weakref__") else ("__weakref__",)),
    )
    _limits: "Optional[Limits]"
    _build: "Optional[str]"
    _loaded: "Optional[AllowList]"
    _fixed: "Optional[AllowList]"
    kept: "Any"
    """What `storklocker.loads` keeps with the list: its guard."""
    _meant: "Optional[Meant]"

    def __new__(
        cls,
        pairs: "Union[Iterable[Item], Mapping[str, Iterable[str]]]",
        *,
        substitutes: "Mapping[Any, Substitute]" = MappingProxyType({}),
        dangerous: "Iterable[Union[str, Pair]]" = (),
        limits: "Optional[Limits]" = None,
        build: "Optional[str]" = None,
    ) -> "AllowList":
        own = _limits_in(limits)
        said = None if build is None else _build_in(build)
        return cls._saying(cls.of_encoded(encoded(pairs), own, said), substitutes, dangerous)

    @classmethod
    def _saying(cls, made: "AllowList", substitutes: "Any", dangerous: "Any") -> "AllowList":
        """The list, which also says this of its names."""
        if substitutes or dangerous:
            from ._meant import meant_of  # few lists say more than names

            made._meant = meant_of(made, substitutes, dangerous)
        return made

    @classmethod
    def of_encoded(
        cls,
        pairs: "Iterable[Tuple[bytes, bytes]]",
        limits: "Optional[Limits]",
        build: "Optional[str]",
        settings: "Optional[bytes]" = None,
    ) -> "AllowList":
        """The list of these encoded pairs, with settings for the calls that name none."""
        own = packed(STANDARD if limits is None else limits, "unknown", False, build or "made")
        made = pairs_of(cls, tuple(sorted(set(pairs))), settings or own)
        made._limits, made._build = limits, build
        made._loaded = made._fixed = made.kept = made._meant = None
        return made

    @classmethod
    def from_text(cls, text: "Union[str, bytes]") -> "AllowList":
        """Parses the text of a list file. Raises ListFault if it is not one, and ValueError if its
        section `[substitutes]` has a name that isn't listed.

            >>> text = 'version = 2\\n[imports]\\ndatetime = ["date"]'
            >>> ("datetime", "date") in storklocker.AllowList.from_text(text)
            True

        If its limits leave out `numbers` or a limit on costs, that of `STANDARD` applies. A limit
        on costs is off at 4,294,967,295 for `levels` and `weight`, at 2 ** 63 - 1 for the others.
        A name that only Python 2 has means its Python 3 name, which is logged once.
        """
        return cls._parsed(text, "")

    @classmethod
    def _parsed(cls, text: "Union[str, bytes]", file: str) -> "AllowList":
        if not isinstance(text, (str, bytes, bytearray)):
            raise TypeError(f"the text of a list file must be str or bytes, not {type(text)!r}")
        from ._list_files import fault_of, heard, substitutes_in  # many lists are made of pairs

        data = bytes_of(text) if isinstance(text, str) else bytes(text)
        (fault, numbers, costs), room = with_room(lambda size: read_list(data, size))
        (late, said), rows = with_room(lambda size: list_told(data, size))
        if fault or late:
            raise fault_of(data, LIST_FAULTS[fault or late])
        pairs = ((module or b"", name or b"") for module, name in records(room))
        *costs, builds = costs
        has_limits, _, *are_said, is_ruled = said
        said_costs = map(heard, COSTS, costs, are_said)
        own = limits_of(*numbers)._replace(**dict(zip(COSTS, said_costs)))
        build = BUILDS[builds] if is_ruled else None
        made = cls.of_encoded(pairs, own if has_limits else None, build)
        if made.for_loading() is not made:
            from ._old_lines import tell  # few files have such names

            tell(made, data, file)
        return cls._saying(made, *substitutes_in(data, rows))

    @classmethod
    def from_file(cls, file: "Union[str, os.PathLike[str]]") -> "AllowList":
        """Reads a list file. Raises ListFault if it is not one, and OSError if reading fails.
        "@torch,@pandas" names shipped lists; a file whose name begins so is "./@torch".
        """
        name = os.fspath(file)
        if isinstance(name, str) and name.startswith("@"):
            return cls.shipped(*name.split(","))
        with open(name, "rb") as opened:
            text = opened.read()
        try:
            return cls._parsed(text, os.fsdecode(name))
        except ListFault as fault:
            raise ListFault(fault.fault, os.fsdecode(name), fault.line, fault.hint) from None

    @classmethod
    def shipped(cls, *names: str) -> "AllowList":
        """The union of lists of `storklocker.lists`, such as "torch" and "pandas". Raises
        ValueError for an unknown name.
        """
        from ._shipped import name_of  # few programs ask for any

        made = cls([])
        for name in names:
            made = made | shipped_list(name_of(name))
        return made

    def to_text(self) -> str:
        """The text of a list file that reads back as this list: sorted, and always the same.

        Raises ValueError if it has a substitute that no list file can name.
        """
        from ._writing import text_of  # few programs write lists

        return text_of(self)

    def to_file(self, file: "Union[str, os.PathLike[str]]") -> None:
        """Writes the list file, whole or not at all. An existing file keeps its mode."""
        from ._writing import replace, text_of  # few programs write lists

        replace(file, text_of(self))

    @property
    def limits(self) -> "Optional[Limits]":
        """The limits of the list; None if it has none."""
        return self._limits

    @property
    def meant(self) -> "Optional[Meant]":
        """What it says of its names, beside that they may be imported; None if that is nothing."""
        return self._meant

    @property
    def build(self) -> "Optional[str]":
        """"made" or "any", the objects that BUILD may take; None if the list doesn't decide it."""
        return self._build

    def __iter__(self) -> "Iterator[Pair]":
        for module, name in self._pairs:
            yield (module.decode(), name.decode())

    def __len__(self) -> int:
        return len(self._pairs)

    def __contains__(self, pair: "Any") -> bool:
        if not is_pair(pair):
            return False
        return self.has(bytes_of_pair(pair))

    def has(self, names: "Names") -> bool:
        """Whether it contains a pair of encoded names. The names of an unknown import are None, and
        no list contains them.
        """
        if names[0] is None:
            return False
        from bisect import bisect_left

        place = bisect_left(self._pairs, names)
        return place < len(self._pairs) and self._pairs[place] == names

    refusal = _Pairs._refusal
    """The Verdict on what isn't one accepted pickle; None if it is one."""

    def with_one(self, names: "Tuple[bytes, bytes]") -> "AllowList":
        """The list with one more pair of encoded names."""
        return self.of_encoded((*self._pairs, names), self._limits, self._build)

    def missing_in(
        self, data: bytes, settings: "Optional[bytes]" = None
    ) -> "Tuple[List[Import], bool]":
        """The imports of a pickle that it doesn't contain, each once, and whether some are left
        out.
        """
        from ._missing import missing_of  # few pickles are refused

        return missing_of(data, self, settings or settings_of(self, None, "unknown"))

    def permits(self, names: "Names") -> bool:
        """Whether a guard imports a pair of encoded names, as Python 3 has them."""
        return self.for_loading().has(names)

    def __or__(self, other: object) -> "AllowList":
        """The union of the pairs, under the limits of both."""
        if not isinstance(other, AllowList):
            return NotImplemented
        limits, builds = within(self._limits, other._limits), (self._build, other._build)
        build = "made" if "made" in builds else builds[0] or builds[1]
        made = type(self).of_encoded(self._pairs + other._pairs, limits, build)
        if self._meant or other._meant:
            from ._meant import both  # few lists say more than names

            made._meant = both(self, other)
        return made

    def __eq__(self, other: object) -> bool:
        if not isinstance(other, AllowList):
            return NotImplemented
        mine = (self._limits, self._build, self._meant)
        return self._pairs == other._pairs and mine == (other._limits, other._build, other._meant)

    def __hash__(self) -> int:
        return hash((self._pairs, self._limits, self._build))

    def __repr__(self) -> str:
        shown = [repr(pair) for pair, _ in zip(self, range(4))]
        if len(self) > len(shown):
            shown.append(f"... {len(self) - len(shown)} more")
        limits = "" if self._limits is None else f" within {self._limits!r}"
        build = "" if self._build is None else f" with build={self._build!r}"
        return f"AllowList([{', '.join(shown)}]){limits}{build}"

    def __reduce__(self) -> "Tuple[Any, ...]":
        said = ({}, ()) if self._meant is None else tuple(self._meant)
        return (_list_of, (type(self), self._pairs, self._limits, *said, self._build))

    def under(self, settings: bytes) -> "AllowList":
        """The list with these settings for the calls that name none."""
        if settings == settings_of(self, None, "unknown"):
            return self
        return self.of_encoded(self._pairs, self._limits, self._build, settings)

    def for_loading(self) -> "AllowList":
        """The pairs that this Python can import: those of modules that only Python 2 has, under the
        names that Python 3 has given them.
        """
        if self._loaded is None:
            lost = [pair for pair in self if _names.is_lost(pair)]
            self._loaded = _AS_IT_IS if not lost else self._renaming(lost)
        return self if self._loaded is _AS_IT_IS else self._loaded

    def for_old_names(self) -> "AllowList":
        """The pairs that CPython maps to a pair of this list, with `fix_imports`."""
        if self._fixed is None:
            own = self.for_loading()
            pairs = [bytes_of_pair(old) for pair in own for old in _names.old_names(pair)]
            is_same = sorted(set(pairs)) == sorted(set(self._pairs))
            made = self.of_encoded(pairs, self._limits, self._build)
            self._fixed = _AS_IT_IS if is_same else made
        return self if self._fixed is _AS_IT_IS else self._fixed

    def listed_for(self, data: bytes, fix_imports: bool = True) -> "AllowList":
        """The list that applies to the pickle that begins the bytes."""
        if fix_imports and _names.are_old(data):
            return self.for_old_names()
        return self.for_loading() if fix_imports else self

    def _renaming(self, lost: "List[Pair]") -> "AllowList":
        left = set(self._pairs) - {bytes_of_pair(pair) for pair in lost}
        left.update(bytes_of_pair(_names.renamed(pair)) for pair in lost)
        return self.of_encoded(left, self._limits, self._build)


@functools.lru_cache(maxsize=None)
def shipped_list(name: str) -> AllowList:
    """A list of `storklocker.lists`, by its name there."""
    from ._shipped import file_of  # few programs ask for any

    return AllowList.from_file(file_of(name))


def has_substitutes(allow: AllowList) -> bool:
    """Whether a list has a name that is loaded through a substitute."""
    if allow._meant is not None and allow._meant.substitutes:
        return True
    from ._substituted import has_any  # a check needs none of these names

    return has_any(allow.for_loading()._pairs)


def _list_of(
    kind: "Type[AllowList]",
    pairs: "Tuple[Tuple[bytes, bytes], ...]",
    limits: "Optional[Limits]",
    substitutes: "Any" = MappingProxyType({}),
    dangerous: "Any" = (),
    build: "Optional[str]" = None,
) -> AllowList:
    return kind._saying(kind.of_encoded(pairs, limits, build), substitutes, dangerous)


@functools.lru_cache(maxsize=64)
def within(one: "Optional[Limits]", other: "Optional[Limits]") -> "Optional[Limits]":
    """The limits that apply where both do, each of them or None."""
    if one is None or other is None:
        return one or other
    return least(one, other)


def _limits_in(given: "Optional[Limits]") -> "Optional[Limits]":
    """An argument that must be limits or None."""
    if given is not None and not isinstance(given, Limits):
        raise TypeError(f"limits must be a storklocker.Limits or None, not {type(given)!r}")
    return given


def _build_in(given: str) -> str:
    """An argument that must say what BUILD may take."""
    if given not in BUILDS:
        raise ValueError(f"build must be 'made' or 'any', not {given!r}")
    return given


def settings_of(
    allow: AllowList,
    limits: "Optional[Limits]",
    old_strings: str,
    build: str = "made",
    keeps_memo: bool = False,
) -> bytes:
    """The settings of a check as the library reads them. The limits of the list apply too, and its
    word on BUILD comes first.
    """
    if not isinstance(allow, AllowList):
        raise TypeError(f"allow must be a storklocker.AllowList, not {type(allow)!r}")
    _limits_in(limits)
    if old_strings not in OLD_STRINGS:
        raise ValueError(f"old_strings must be 'unknown', 'ascii' or 'bytes', not {old_strings!r}")
    own = _build_in(build)
    applied = within(limits, allow._limits) or STANDARD
    return packed(applied, old_strings, keeps_memo, allow._build or own)


_AS_IT_IS = AllowList([])

"""What a guard says of a pickle whose names its list permits, as far as this shows before a load.

A guard loads some names through substitutes, which judge what a pickle gives them. Here the guard's
own reader reads the pickle, and asks the same substitutes about the very objects. Nothing else is
imported or run: any other name is a `Named`, and what is made by one an `Answer`. A substitute that
is given one of those can't judge it, so that the pickle is undecided. So it is if the state of an
object is set that may be a class or an array, which a guard refuses.
"""

from __future__ import annotations

import enum
import itertools
import sys
from collections import OrderedDict
from typing import Any, Dict, List, NamedTuple, Optional, Tuple

from .. import _arrays, lists
from .._answers import Misused
from .._lists import AllowList, has_substitutes
from .._names import are_old, renamed
from .._objects import found
from .._storklocker import begin_uses, unjudged, walked
from .._items import SHOWING
from .._of_packages import PACKAGES
from .._states import HAS_ITEMS, HAS_STATE
from .._substitute import Class, Substitute, Value
from .._reader import STEPS_FREE, Reader, meant
from .._table import TABLE, for_object
from .._types import Kind
from .._uses import Piece, Uses, named_by
from .budget import LOOKED_AT, Budget, TooMuch
from .called import LARGEST
from .dangers import is_in_shipped_list
from .joblib_cutting import WRAPPERS
from .source import Source
from .stand_ins import (
    TENSORS, UNKNOWN, Answer, Named, Pair, PutOff, Storage, Tensors, Watched
)
from .unseen import CALLED, PLAIN, Unseen, is_enum, is_error, judge_items, judge_state

_MOST, _SHORT, _KEPT = 10_000_000, 1 << 12, 10_000
"""The most values that are looked through in a pickle; and of so many pickles that are no longer
what is found is kept for others that are the same.
"""
_READ, _STEPS_PER, _MOST_NAMES = 16, 4, 1000
"""The steps of a pickle that is read, beside one for so many of its bytes and of its values; and
the most names whose roles are kept.
"""
_MAKING = ("attrgetter", "methodcaller")
"""Substitutes of a list that import nothing to judge what they are given. What they make is called
by nobody here."""
_OPEN = frozenset(("numpy", "operator", "_operator", "types", *PACKAGES))
"""Packages whose classes and functions may make arrays, types, modules or functions, or objects
whose states a guard judges by what they hold.
"""
_MADE = (Class, Value)
"""What is judged before a guard has imported it, also of packages with compiled code."""
_ONE = (("pytz", "_UTC"),)
"""Classes of which there is one object."""
_ARRAYS = frozenset(name for _, name in _arrays.TABLE)
"""The names of NumPy that have substitutes, which a guard knows by any other name too."""
_ATOMS = frozenset((type(None), bool, int, float, complex, str, bytes, bytearray))
_HELD, _NAMED = frozenset((tuple, list, set, frozenset)), frozenset((dict, OrderedDict))


class Fate(enum.Enum):
    """What a guard does with a pickle."""

    LOADED = "loaded"
    REFUSED = "refused"
    UNDECIDED = "undecided"


class Foreseen(NamedTuple):
    """What a guard does, and why, if it doesn't load the pickle."""

    fate: Fate
    why: str = ""


_LOADED = Foreseen(Fate.LOADED)


def foreseen(source: Source, most: int, look: Look, budget: Budget) -> Foreseen:
    """What a guard does with the pickles that follow one another from the first byte on, at most so
    many, whose names and costs the list permits.
    """
    if source.size > LARGEST:
        why = f"its {source.size:,} bytes are too many to predict its load"
        return Foreseen(Fate.UNDECIDED, why)
    data, at, worst = source.read(0, source.size), 0, _LOADED
    told: Dict[bytes, Foreseen] = {}
    for _ in range(most):
        end, is_stopped = walked(data, at)
        if not is_stopped or worst.fate is Fate.REFUSED:
            break
        one = told.get(data[at:end]) or look.of(data[at:end])
        if end - at <= _SHORT and len(told) < _KEPT:
            told[data[at:end]] = one
        try:
            budget.spend(look.spent())
        except TooMuch:
            return Foreseen(Fate.UNDECIDED, "it has too many pickles to predict their load")
        worst = worst if one.fate is Fate.LOADED else one
        at = end
    return worst


class Look:
    """A look at pickles for what a guard with this list does with them."""

    def __init__(self, allow: AllowList) -> None:
        self._allow, self._steps = allow, 0
        self._uses: Dict[bool, _ForeseenUses] = {}

    def spent(self) -> int:
        """The steps that it has taken since it was last asked."""
        steps, self._steps = self._steps, 0
        return steps

    def finds(self, data: bytes) -> bool:
        """Whether there is anything to be told of a pickle: that a guard doesn't load it, or might
        not.
        """
        return self.of(data).fate is not Fate.LOADED

    def unfound(self, values: List[bytes], start: int) -> int:
        """The index from which on there may be anything to be told of these pickles."""
        uses = self._uses_of(values[start])
        found = unjudged(values, start, uses.number_of, uses.numbers, uses.takes_any, True)
        self._steps += found - start + sum(map(len, values[start:found])) // LOOKED_AT
        return found

    def _uses_of(self, data: bytes) -> _ForeseenUses:
        is_old = are_old(data)
        uses = self._uses.get(is_old)
        if uses is None or uses.names > _MOST_NAMES:
            uses = self._uses[is_old] = _ForeseenUses(Foreseer(self._allow, is_old, "ASCII"))
        return uses

    def of(self, data: bytes) -> Foreseen:
        """What a guard does with a pickle."""
        uses = self._uses_of(data)
        uses.begin()
        self._steps += 1 + len(data) // LOOKED_AT
        try:
            pieces = uses.respelled(data, 0, False)
        except Misused as error:
            return Foreseen(Fate.REFUSED, str(error))
        return self._read(pieces, uses) if uses.judges else _LOADED

    def _read(self, pieces: List[Piece], uses: _ForeseenUses) -> Foreseen:
        """The same, of a pickle that is read. Strings of Python 2 are decoded as a guard's reader
        would.
        """
        for encoding in ("ASCII", "latin-1"):
            reader = Foreseer(self._allow, uses.is_old, encoding, uses)
            try:
                reader.read_pieces(pieces[:])
            except UnicodeDecodeError:
                continue
            except Misused as error:
                return Foreseen(Fate.REFUSED, str(error))
            except _Late as error:
                return Foreseen(Fate.UNDECIDED, reader.late or str(error))
            except Exception as error:  # whatever hostile instructions make a reader raise
                why = f"its load ends before it is judged: {type(error).__name__}: {error}"
                return Foreseen(Fate.UNDECIDED, reader.late or why)
            finally:
                self._steps += reader.taken(sum(end - begin for _, begin, end in pieces))
            return Foreseen(Fate.UNDECIDED, reader.late) if reader.late else _LOADED
        return Foreseen(Fate.UNDECIDED, "a string of Python 2 can't be decoded")


class _Late(Exception):
    """The rest can't be judged before a load."""


class _ForeseenUses(Uses):
    """Follows pickles, each by itself, without importing what they name."""

    __slots__ = ("_reader", "_roles", "numbers")

    def __init__(self, reader: Foreseer) -> None:
        super().__init__(reader.own, WRAPPERS, meant(reader.allow), is_shared=False)
        self._reader, self.takes_any = reader, reader.is_any
        self._roles: Dict[Tuple[bytes, bytes], int] = {}
        self.numbers: Dict[bytes, int] = {}
        """What is known of names, by the instructions that push them."""

    @property
    def names(self) -> int:
        """The number of names that it has met, in each way in which they are spelled."""
        return len(self._roles)

    @property
    def is_old(self) -> bool:
        """Whether the names are those of Python 2."""
        return self._reader.is_old

    def begin(self) -> None:
        """Forgets what the memo of the last pickle has."""
        self._kept = begin_uses()

    def number_of(self, module: bytes, name: bytes) -> int:
        """The number and the role of what an import asks for, as for any pickles."""
        return self._number_of(module, name)

    def _number_of(self, module: bytes, name: bytes) -> int:
        found = self._roles.get((module, name))
        if found is None:
            pair = named_by(module, name, self.is_old)
            own = self._own.get(pair)
            substitute = self._reader.substitute_for(pair)
            role = None if substitute is None else substitute.role
            found = self._roles[module, name] = self._told(pair, role if own is None else own)
        return found


class Foreseer(Reader):
    """The reader of a guard, for which a name without a substitute is nothing but a name."""

    def __init__(
        self, allow: AllowList, is_old: bool, encoding: str, uses: Optional[Uses] = None
    ) -> None:
        uses = uses or Uses({}, WRAPPERS, frozenset())
        super().__init__(allow, uses, encoding=encoding, buffers=itertools.repeat(UNKNOWN))
        self.is_old = is_old
        """Whether its names are those of Python 2."""
        self.allow = allow
        self.is_any = allow.build == "any" and not has_substitutes(allow)
        """Whether BUILD may take what the pickle hasn't made."""
        self._named: Dict[Pair, Named] = {}
        self._values = 0
        self.late = ""
        """Why it is undecided, if it is."""

    def taken(self, size: int) -> int:
        """The steps that a pickle of this size has taken that it has read."""
        parts = size + self._values + max(0, STEPS_FREE + 8 * size - self._steps)
        return _READ + parts // _STEPS_PER

    def put_off(self, why: str) -> Answer:
        """What something answers that isn't judged here."""
        self.late = self.late or why
        return UNKNOWN

    def substitute_for(self, pair: Pair) -> Optional[Substitute]:
        """The substitute for a name, if it has one, found without importing anything but NumPy."""
        own = self.own.get(pair) or TABLE.get(pair)
        if own is not None and pair not in CALLED:
            return own
        package = pair[0].partition(".")[0]
        if pair in CALLED or package in PACKAGES or is_enum(pair) or is_error(pair):
            return Unseen(pair, self)
        if package != "numpy" and pair[0] not in SHOWING:
            return None
        if package == "numpy":
            import numpy  # noqa: F401 # (raises ImportError, where nothing of it is known)

        it = found(*pair) if pair[0] in sys.modules or pair[0] in SHOWING else None
        return for_object(it)

    def find_class(self, module: str, name: str, /) -> Any:
        pair = renamed((module, name)) if self.is_old else (module, name)
        substitute = self.substitute_for(pair)
        if substitute is None:
            return self._stand_in(pair)
        within = substitute.within(self)
        if isinstance(within, (Kind, Unseen)):
            return within
        if pair in TENSORS and pair not in self.own:
            return Tensors(substitute, self, TENSORS[pair])
        is_imported = pair[0].partition(".")[0] in PACKAGES and not isinstance(substitute, _MADE)
        if is_imported or pair in self.own and substitute.name not in _MAKING:
            return PutOff(substitute, self)
        return Watched(within, self, pair not in self.own)

    def named(self, pair: Pair) -> Named:
        """What stands for a name."""
        if pair not in self._named:
            held = {"__slots__": (), "pair": pair, "__getinitargs__": None}
            self._named[pair] = Named("Named", (Answer,), held)
        return self._named[pair]

    def _stand_in(self, pair: Pair) -> Any:
        if pair[1].rpartition(".")[2] in _ARRAYS:
            self.put_off(f"{pair[0]}.{pair[1]} may have a substitute")
        return self.named(pair)

    def persistent_load(self, asked: Any, /) -> Any:
        # (no variable has the receiver, because references to it are counted)
        if type(asked) is tuple and len(asked) > 1 and isinstance(asked[0], (Named, Answer)):
            if len(asked) == 2 or type(asked[2]) is int and asked[2] & (HAS_STATE | HAS_ITEMS):
                if not (_is_own(asked[0]) or self.takes_any):
                    self.put_off(f"a state or items are set on what {_told(asked[0])}")
                elif len(asked) == 2 and not self.takes_any:
                    judge_state(self, asked[0], asked[1])
                elif not self.takes_any and asked[2] & HAS_ITEMS:
                    judge_items(asked[0])
            if len(asked) == 2 or type(asked[2]) is int:
                return asked[0]
        if type(asked) is tuple and len(asked) == 2:
            if not self.knows(_judged_of(type(asked[0]), asked[1])):
                raise _Late("the state of an array has a part that only a load makes")
        return super().persistent_load(asked)

    def persistent(self, number: Any) -> Any:
        is_storage = type(number) is tuple and len(number) in (5, 6) and number[0] == "storage"
        return Storage(number[4]) if is_storage and type(number[4]) is int else UNKNOWN

    def called(self, called: Any, given: Any) -> Any:
        return self.put_off("it calls what a persistent id returns")

    def knows(self, given: Any) -> bool:
        """Whether all of these values is what a guard's reader would have here."""
        left: List[Any] = [given]
        seen = set()
        while left:
            it = left.pop()
            if type(it) in _ATOMS:
                continue
            if id(it) in seen:
                continue
            if not (type(it) in _HELD or type(it) in _NAMED or _is_made(it)):
                return False
            seen.add(id(it))
            parts = _parts_of(it)
            left.extend(parts)
            self._values += 1 + len(parts)
            if self._values > _MOST:
                raise _Late("it has too many values to look through")
        return True


def _judged_of(kind: Any, state: Any) -> Any:
    """What a guard judges of the state of an object of this class: of an array not the objects that
    are its items, unless they are rows.
    """
    numpy: Any = sys.modules.get("numpy")
    if numpy is None or kind not in (numpy.ndarray, numpy.ma.MaskedArray):
        return state
    if type(state) is not tuple or len(state) not in (5, 7) or type(state[4]) is not list:
        return state
    rows = state[4] if getattr(state[2], "names", None) else ()
    return (*state[:4], *state[5:], [it for it in rows if type(it) is not tuple])


def _parts_of(held: Any) -> List[Any]:
    if type(held) in _NAMED:
        return [*held, *held.values(), *getattr(held, "__dict__", {}).values()]
    return list(held) if type(held) in _HELD else []


def _is_made(it: Any) -> bool:
    """Whether a substitute has made it, of which nothing is unknown; or it is the class of one."""
    if isinstance(it, (Substitute, type)):
        return not isinstance(it, Named)
    numpy: Any = sys.modules.get("numpy")
    if numpy is None or isinstance(it, Answer):
        return False
    if isinstance(it, numpy.ndarray):
        return not it.dtype.hasobject
    return isinstance(it, (numpy.dtype, numpy.generic))


def _is_own(receiver: Any) -> bool:
    """Whether it is known to be an object of a class of its own: no class, module or function, and
    nothing of NumPy.
    """
    pair: Optional[Pair] = receiver.pair
    if isinstance(receiver, Named) or pair is None or pair in _ONE:
        return False
    is_listed = is_in_shipped_list(*pair) and pair not in lists.ENUM
    if pair[0].partition(".")[0] in _OPEN:
        return is_listed and pair[0].partition(".")[0] in (*PLAIN, "sklearn")
    return bool(receiver.is_bare or pair in WRAPPERS or is_listed)


def _told(receiver: Any) -> str:
    if receiver.pair is None:
        return "only a load makes"
    name = ".".join(receiver.pair)
    return f"is imported as {name}" if isinstance(receiver, Named) else f"{name} makes"

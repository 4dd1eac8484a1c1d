"""The reader of pickles whose names have substitutes, or whose states are judged."""

from __future__ import annotations

import pickle
import types
import weakref
from typing import (
    Any,
    Callable,
    Dict,
    FrozenSet,
    Iterable,
    Iterator,
    List,
    Optional,
    Tuple,
    TYPE_CHECKING,
)

from . import _compiled, _names
from ._answers import Misused, told
from ._objects import KINDS
from ._states import build, judge_made
from ._substitute import Substitute
from ._table import TABLE, for_object
from ._uses import Pair, Piece, Uses
from ._weighing import Scales

if TYPE_CHECKING:
    from ._lists import AllowList

MOST_FREE, STEPS_FREE = 1 << 26, 100_000
"""The bytes and the steps that a pickle may have substitutes take, beside those for its length."""
_UNFOLLOWED = "the pickle has instructions that no pickler writes"
_FUNCTIONS = (*KINDS, types.MethodType)
_IS_LENT = pickle.Unpickler is not getattr(pickle, "_Unpickler", None)
"""Whether the reader takes bytes that are lent: that in C does, that in Python doesn't."""


class Feed:
    """The file of a `Reader`: an accepted pickle, respelled. It lends its bytes and copies none."""

    def __init__(self) -> None:
        self._pieces: List[Piece] = []
        self._data, self._at, self._end = b"", 0, 0
        self._view = memoryview(b"")

    def fill(self, pieces: List[Piece]) -> None:
        """Gives it a pickle."""
        pieces.reverse()
        self._pieces, self._at = pieces, self._end

    def _begin(self) -> None:
        """Begins the next piece."""
        self._data, self._at, self._end = self._pieces.pop()
        self._view = memoryview(self._data)

    def peek(self, count: int, /) -> memoryview:
        """All that is left of a piece."""
        while self._at == self._end and self._pieces:
            self._begin()
        return self._view[self._at : self._end]

    def read(self, count: int, /) -> Any:
        taken = self.peek(count)[:count]
        self._at += len(taken)
        if len(taken) == count or not self._pieces:
            return taken if _IS_LENT else bytes(taken)
        return bytes(taken) + bytes(self.read(count - len(taken)))

    def readline(self) -> bytes:
        """A line, which ends within its piece."""
        self.peek(0)
        begin, end = self._at, self._data.find(b"\n", self._at, self._end)
        self._at = self._end if end < 0 else end + 1
        return self._data[begin : self._at]


def declared(allow: AllowList) -> Dict[Pair, Substitute]:
    """The substitutes that a list declares, by the names that Python 3 has."""
    if allow.meant is None:
        return {}
    said = allow.meant.substitutes
    return {**{_names.today(pair): said[pair] for pair in said}, **said}


def meant(allow: AllowList) -> FrozenSet[Pair]:
    """The names that a list says to be meant, by the names that Python 3 has."""
    if allow.meant is None:
        return frozenset()
    said = allow.meant.dangerous
    return said.union(map(_names.today, said))


class Reader(pickle.Unpickler):
    """Loads pickles that are accepted and respelled."""

    wrappers: FrozenSet[Pair] = frozenset()
    """The names of joblib's wrapper of arrays, if they have a meaning of their own."""

    def __init__(self, allow: AllowList, uses: Optional[Uses] = None, **named: Any) -> None:
        self._feed = Feed()
        self.lent: Dict[int, Any] = {}
        """The buffers beside the pickle, by id."""
        if named.get("buffers") is not None:
            named["buffers"] = _lent_by(named["buffers"], self.lent)
        super().__init__(self._feed, fix_imports=False, **named)
        self.own = declared(allow)
        """The substitutes that the list declares."""
        self._uses = uses or Uses(self.own, self.wrappers, meant(allow))
        self.unbuilt: Dict[int, Any] = {}
        """Objects that a substitute made, by id, and whose state the pickle has yet to set."""
        self.types: Dict[int, Any] = {}
        """Types of NumPy's arrays whose state was set, by id, each with its size as a tree."""
        self.states: Dict[int, Callable[[Any], Any]] = {}
        """What judges the state of an object in `unbuilt`, and gives the one to be set."""
        self.used: Dict[int, Any] = {}
        """Arrays and indexes that others were made from, by id."""
        self.disguised: List[Tuple[Any, Any]] = []
        """Objects of a class that judges their items, each with the class that they are of."""
        self.raised: Dict[int, Tuple[BaseException, int]] = {}
        """The exceptions that were judged, by id, each with its levels."""
        self.looked = 0
        """The number of memo entries that were searched."""
        self._room = self._steps = 0
        self.itself = weakref.ref(self)
        """It, for what its memo may hold."""
        self.flat: Dict[int, Any] = {}
        """Tuples of plain values in states, by id: they have been looked through."""
        self.keys = Scales(self, True)
        """What the keys weigh that functions were given."""

    def loaded(self, data: bytes, at: int, is_old: bool) -> Any:
        """The object of the accepted pickle at an offset. `is_old`: whether its names are those of
        Python 2.
        """
        return self.read_pieces(self._uses.respelled(data, at, is_old))

    def read_pieces(self, pieces: List[Piece]) -> Any:
        """The object of a pickle that its uses have respelled."""
        self._feed.fill(pieces)
        size = sum(end - begin for _, begin, end in pieces)
        self._room, self._steps = MOST_FREE + 16 * size, STEPS_FREE + 8 * size
        made = self.load()
        while self.disguised:
            disguised, kind = self.disguised.pop()
            disguised.__class__ = kind
        if not self._uses.is_whole:
            raise Misused(_UNFOLLOWED)
        _compiled.check_whole(self.unbuilt)
        return made

    @property
    def takes_any(self) -> bool:
        """Whether BUILD may take what the pickle hasn't made."""
        return self._uses.takes_any

    def take_any(self, is_any: bool) -> None:
        """Says whether BUILD may take what the pickle hasn't made."""
        self._uses.takes_any = is_any

    def pay(self, cost: int) -> None:
        """Counts bytes that a substitute copies. What picklers write costs no more than the pickle
        is long. It is much more if a pickle has the same copied again and again.
        """
        self._room -= cost
        if self._room < 0:
            raise Misused("the pickle's shared parts are copied too often")

    def step(self, count: int) -> None:
        """Counts the steps in which a substitute looks through what the pickle gives it: those of
        an honest pickle are no more than it has parts.
        """
        self._steps -= count
        if self._steps < 0:
            raise Misused("the pickle's shared parts are examined too often")

    def find_class(self, module: str, name: str, /) -> Any:
        pair = module, name
        substitute = self.own[pair] if pair in self.own else TABLE.get(pair)
        if substitute is None:
            it = super().find_class(module, name)
            substitute = for_object(it)
            if substitute is None:
                return it
        return substitute.within(self)

    def persistent_load(self, asked: Any, /) -> Any:
        if type(asked) is not tuple:
            return self.persistent(asked)
        if len(asked) == 2:
            if not _compiled.is_built(self, asked):
                if not self._uses.is_whole:
                    raise Misused(_UNFOLLOWED)
                build(self, asked[0], asked[1])
                _compiled.check(self, asked[0])
        elif len(asked) != 3:
            return self.persistent(asked[0])
        elif type(asked[2]) is list:
            return self._new(asked[0], asked[1])
        elif type(asked[2]) is dict:
            return self.called(asked[0], asked[1])
        elif asked[2] is not None:
            judge_made(self, asked)
        elif isinstance(asked[0], Substitute):
            return asked[0].real()
        return asked[0]

    def _new(self, kind: Any, given: Any) -> Any:
        """What NEWOBJ makes of a class, or of what stands for it; OBJ or NEWOBJ_EX, if these are
        all in a tuple.
        """
        if given is None:
            kind, *given = kind
            if given or not isinstance(kind, (Substitute, type)):
                return kind(*given) if isinstance(kind, Substitute) else self.called(kind, given)
            given = ()
        elif given is True:
            kind, given, words = kind
            if words != {}:
                raise Misused(f"NEWOBJ_EX of {told(kind)} with words")
        if type(given) is not tuple or not isinstance(kind, (Substitute, type)):
            raise pickle.UnpicklingError("NEWOBJ class argument must be a type")
        if isinstance(kind, Substitute):
            return kind.new(self, *given)
        maker: Any = kind
        return maker.__new__(maker, *given)

    def called(self, called: Any, given: Any) -> Any:
        """What a call makes of what a persistent id has given: a class or a function, and no other
        object, whose class may have it called too.
        """
        if not isinstance(called, _FUNCTIONS):
            raise Misused(f"the pickle calls {told(called)}, which a persistent id returned")
        return called(*given)

    def copied_memo(self) -> Dict[int, Any]:
        """A copy of the memo."""
        own: Any = self
        copied: Dict[int, Any] = own.memo.copy()
        return copied

    def persistent(self, number: Any) -> Any:
        """The object of a persistent id of the pickle."""
        raise pickle.UnpicklingError(
            "A load persistent id instruction was encountered, "
            "but no persistent_load function was specified."
        )


class RenamingReader(Reader):
    """Imports each pair under its Python 3 name."""

    def find_class(self, module: str, name: str, /) -> Any:
        return super().find_class(*_names.renamed((module, name)))


def named(module: str, name: str, allow: AllowList) -> Any:
    """What a pickle gets for a listed name, to call it."""
    reader = Reader(allow)
    reader.loaded(b"\x80\x04N.", 0, False)  # from protocol 4 on, names have dots
    return reader.find_class(module, name)


def _lent_by(buffers: Iterable[Any], lent: Dict[int, Any]) -> Iterator[Any]:
    """The buffers, which are noted when the reader takes them."""
    for it in buffers:
        lent[id(it)] = it
        yield it

"""The arrays of a joblib file, made where its pickle calls the wrapper with a gap."""

from __future__ import annotations

import sys
import weakref
from typing import Any, Dict, Iterator, List, NamedTuple, Optional, Tuple, Type

from .. import _names
from .._answers import Misused
from .._guard import Guard
from .._reader import Reader
from .._telling import Misuses
from .._types import class_of, known, size_of
from ..scanning.joblib_cutting import WRAPPERS, Gap
from ..scanning.source import Source

MODES = (None, "r", "r+", "w+", "c")


class Place(NamedTuple):
    """Where the bytes of arrays are, and how they are given."""

    source: Source
    path: Optional[str]
    """The name of the file, if its arrays are to be mapped."""
    mode: Optional[str]


class _Lent:
    """What the pickle gets as an out-of-band buffer: a gap that only our wrapper can open."""

    __slots__ = ("gap", "pickled")

    def __init__(self, gap: Gap, pickled: bytes) -> None:
        self.gap, self.pickled = gap, pickled


def loaded(
    guard: Guard, pickled: bytes, gaps: List[Tuple[Gap, bytes]], place: Place
) -> Any:
    """The object of an accepted pickle whose arrays were cut out. Each gap comes with the pickle of
    an array of objects, which is accepted too.
    """
    encoding, errors = guard.decoding(None, None)
    lent = iter([_Lent(*each) for each in gaps])
    reader = _Reader(guard.allow, encoding=encoding, errors=errors, buffers=lent)
    reader.is_old = guard.has_old_names(pickled)
    reader.wrapper = _wrapper_of(reader, guard, place)
    with Misuses(guard, pickled):
        return reader.loaded(pickled, 0, reader.is_old)


class _Reader(Reader):
    """Gives a class of ours in the place of joblib's wrapper."""

    wrappers = WRAPPERS
    wrapper: Type[Any]
    is_old = False

    def find_class(self, module: str, name: str, /) -> Any:
        if (module, name) in WRAPPERS:
            return self.wrapper
        pair = _names.renamed((module, name)) if self.is_old else (module, name)
        return super().find_class(*pair)


def _wrapper_of(reader: Reader, guard: Guard, place: Place) -> Type[Any]:
    held = weakref.ref(reader)
    has_objects: Dict[int, bool] = {}

    class NumpyArrayWrapper:
        """What a pickle says of an array. It is called with the bytes of it."""

        _state: Any = None

        def __setstate__(self, state: Any) -> None:
            if type(state) is not dict or self._state is not None:
                raise Misused("the state of a wrapper has an unexpected form, or is set twice")
            self._state = state

        def __call__(self, lent: Any) -> Any:
            its = held()
            if type(lent) is not _Lent or type(self._state) is not dict or its is None:
                raise Misused("a wrapper of joblib is called with something other than its bytes")
            return _Array(its, self._state, has_objects).made(lent, guard, place)

    return NumpyArrayWrapper


class _Array:
    """What the state of a wrapper says, judged."""

    def __init__(self, reader: Reader, state: Dict[str, Any], has_objects: Dict[int, bool]) -> None:
        import numpy

        try:
            kind, self.shape, self.order = state["subclass"], state["shape"], state["order"]
            self.type, self.is_mapped = known(reader, state["dtype"]), state["allow_mmap"] is True
        except KeyError as error:
            raise Misused(f"the state of a wrapper lacks {error}") from None
        self.kind = class_of(kind, numpy.ndarray)
        if self.kind not in (numpy.ndarray, numpy.matrix, numpy.memmap):
            raise Misused("joblib writes no wrapper of this class")
        self.count = size_of(self.shape, self.type)
        if self.order not in ("C", "F") or self.type.subdtype is not None or not self.type.itemsize:
            raise Misused("joblib writes no wrapper with this order or type")
        if id(self.type) not in has_objects:
            has_objects[id(self.type)] = any(_objects_in(self.type))
        self.has_objects = has_objects[id(self.type)]

    def made(self, lent: _Lent, guard: Guard, place: Place) -> Any:
        """The array of these bytes."""
        import numpy

        if self.has_objects != lent.gap.is_pickle or self.type.hasobject != self.has_objects:
            raise Misused("the type of an array hides objects over raw bytes")
        if lent.gap.is_pickle:
            array = guard.load_accepted(lent.pickled)
            if not isinstance(array, numpy.ndarray):
                raise Misused("the pickle of an array of objects isn't an array")
        elif lent.gap.size != self.count * self.type.itemsize:
            raise Misused("an array doesn't have the length that its shape requires")
        elif self.is_mapped and place.mode is not None and place.path is not None:
            array = self._mapped(lent.gap.start, place.path, place.mode)
        else:
            array = self._read(lent.gap, place.source)
        array = _in_native_order(array)
        return array if self.kind is not numpy.matrix else array.view(numpy.matrix)

    def _mapped(self, start: int, path: str, mode: str) -> Any:
        import numpy

        words: Dict[str, Any] = {"dtype": self.type, "shape": self.shape, "order": self.order}
        words.update(mode="r+" if mode == "w+" else mode, offset=start)
        return numpy.memmap(path, **words)

    def _read(self, gap: Gap, source: Source) -> Any:
        import numpy

        array: Any = numpy.empty(self.count, self.type)
        if gap.size and not source.fill(gap.start, memoryview(array.view("u1"))):
            raise Misused("the file has become shorter")
        if self.order == "C":
            array.shape = self.shape
            return array
        array.shape = self.shape[::-1]
        return array.transpose()


def _objects_in(kind: Any) -> Iterator[bool]:
    """Whether each part of a type is of objects. The flag of the whole can lie."""
    if kind.subdtype is not None:
        yield from _objects_in(kind.subdtype[0])
    for field in (kind.fields or {}).values():
        yield from _objects_in(field[0])
    yield kind.kind == "O"


def _in_native_order(array: Any) -> Any:
    """The array as joblib gives it: items that are all of the other byte order are swapped."""
    other = ">" if sys.byteorder == "little" else "<"
    fields = array.dtype.fields
    orders = [field[0].byteorder for field in fields.values()] if fields else []
    if array.dtype.byteorder == other or (orders and set(orders) == {other}):
        return array.byteswap().view(array.dtype.newbyteorder("="))
    return array

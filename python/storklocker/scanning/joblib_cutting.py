"""Cuts the arrays out of a joblib file, so that a pickle is left that the checker can judge.

joblib writes an array as a `NumpyArrayWrapper`, and the array's bytes raw behind the BUILD of that;
those of an array of objects are a pickle of their own. Each gap is left out here, and NEXT_BUFFER
TUPLE1 REDUCE stands in its place: the wrapper is called with a buffer. If a gap is cut in the wrong
place, what is left is judged all the same; but joblib would read something else, so everything that
joblib doesn't write is a fault: a wrapper or its class that goes anywhere else, another state, a
type that isn't written as NumPy writes it, an array inside a frame.
"""

from __future__ import annotations

from typing import Any, Callable, List, NamedTuple

from .following import ANY, Dict_, Follower, Global, Made, NotFollowed
from .joblib_types import DTYPE, checked_item
from .source import Source

WRAPPERS = frozenset(
    (module, "NumpyArrayWrapper")
    for module in ("joblib.numpy_pickle", "sklearn.externals.joblib.numpy_pickle")
)
_MADE_BY = frozenset((("copyreg", "_reconstructor"), ("copy_reg", "_reconstructor")))
_CALL = b"\x97\x85R"
_KEYS = frozenset(("subclass", "shape", "order", "dtype", "allow_mmap"))
_ALIGNED = "numpy_array_alignment_bytes"
_ALIGNMENT, _MOST_AXES = 16, 64
_PACKAGES = ("joblib.", "sklearn.externals.joblib.")


class Gap(NamedTuple):
    """The bytes of an array, or the pickle of an array of objects."""

    start: int
    size: int
    is_pickle: bool


class Cut(NamedTuple):
    """What is left of a joblib file, and what was cut out of it, in its order."""

    pickle: bytes
    gaps: List[Gap]
    end: int
    """The offset behind STOP."""


class Cutter(Follower):
    """Follows the instructions of a joblib file. `length_of` gives the length of the pickle that
    begins at an offset, for arrays of objects; 0 if it is refused. `tick` is called now and then.
    """

    def __init__(
        self, source: Source, length_of: Callable[[int], int], tick: Callable[[int], object]
    ) -> None:
        super().__init__(source, tick)
        self._length_of, self._start = length_of, 0
        self._parts: List[bytes] = []
        self._gaps: List[Gap] = []

    def cut(self) -> Cut:
        """Cuts the first pickle of the file. Raises NotFollowed."""
        self._follow()
        self._keep()
        return Cut(b"".join(self._parts), self._gaps, self._at)

    def _keep(self) -> None:
        """Keeps the instructions up to here."""
        count, start = self._at - self._start, self._start - self._base
        if 0 <= start and start + count <= len(self._data):
            self._parts.append(self._data[start : start + count])
        else:
            self._parts.append(self._source.read(self._start, count))
        self._start = self._at

    def _hide(self, values: List[Any]) -> None:
        """A wrapper that isn't built, and the class, go nowhere but where joblib puts them."""
        for value in values:
            first = value[0] if type(value) is tuple and value else value
            is_class = isinstance(first, Global) and first.pair in WRAPPERS
            is_bare = isinstance(value, Made) and value.pair in WRAPPERS and not value.is_built
            if is_class or is_bare:
                raise NotFollowed("a wrapper is used as joblib never uses one")

    def _hide_in_tuple(self, values: List[Any]) -> None:
        """The class may be the first of three, which are the arguments of a call."""
        self._hide(values[1:] if len(values) == 3 else values)
        if len(values) == 3 and isinstance(values[0], Made):
            self._hide(values[:1])

    def _judge_global(self, module: str, name: str) -> None:
        if f"{module}.".startswith(_PACKAGES) and (module, name) not in WRAPPERS:
            raise NotFollowed(f"{module[:80]}.{name[:80]}, as joblib before 0.10 wrote it")

    def _new(self, made_by: Any, words: Any) -> Any:
        self._hide([words])
        if not isinstance(made_by, Global):
            return ANY
        if made_by.pair in WRAPPERS and words != ():
            raise NotFollowed("a wrapper with arguments")
        return Made(made_by.pair, words)

    def _reduce(self, function: Any, words: Any) -> Any:
        first = words[0] if type(words) is tuple and len(words) == 3 else None
        pair = function.pair if isinstance(function, Global) else None
        if pair in _MADE_BY and isinstance(first, Global) and first.pair in WRAPPERS:
            return Made(first.pair, ())
        self._hide([function, words])
        return ANY if pair is None else Made(pair, words)

    def _build(self, made: Any, state: Any) -> None:
        self._hide([state])
        if not isinstance(made, Made):
            self._hide([made])
        elif made.pair not in WRAPPERS:
            if made.pair == DTYPE and made.state is not None:
                raise NotFollowed("the state of a type is set twice")
            made.state = state
        else:
            if self._at < self._frame or made.is_built:
                raise NotFollowed("an array inside a frame, or built twice")
            made.is_built = True
            self._stack[-1] = ANY
            self._keep()
            self._pass_array(state)
            self._start = self._at
            self._parts.append(_CALL)

    def _pass_array(self, state: Any) -> None:
        """Passes over the bytes of an array."""
        items = state.items if isinstance(state, Dict_) else None
        if items is None or not _KEYS <= items.keys() <= _KEYS | {_ALIGNED}:
            raise NotFollowed("the state of a wrapper isn't what joblib writes")
        shape, alignment = items["shape"], items.get(_ALIGNED)
        if (type(shape) is not tuple or any(type(it) is not int or it < 0 for it in shape)
                or len(shape) > _MOST_AXES or items["order"] not in ("C", "F")
                or alignment not in (None, _ALIGNMENT)):
            raise NotFollowed("the shape, order or alignment of an array")
        size, has_objects = checked_item(items["dtype"])
        if has_objects:
            length = self._length_of(self._at)
            if not length:
                raise NotFollowed("the pickle of an array of objects is refused")
            self._pass(length, True)
            return
        for count in shape:
            size *= count
        if alignment is not None:
            padding = self._take(1)[0]
            if padding > alignment or self._take(padding).strip(b"\xff"):
                raise NotFollowed("the alignment of an array")
        self._pass(size, False)

    def _pass(self, size: int, is_pickle: bool) -> None:
        self._gaps.append(Gap(self._at, size, is_pickle))
        self._at += size
        if self._at > self._source.size:
            raise NotFollowed("it is truncated")

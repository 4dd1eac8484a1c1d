"""What stands for names, and for what they make, in a pickle whose load is foreseen."""

from __future__ import annotations

import sys
from typing import TYPE_CHECKING, Any, Optional, Tuple

from .._items import SHOWING
from .._of_torch import judge_parameter, judge_tensor
from .._substitute import Class, Substitute
from .joblib_cutting import WRAPPERS

if TYPE_CHECKING:
    from .foreseeing import Foreseer

Pair = Tuple[str, str]


class Answer:
    """What a call answers, or a class makes."""

    __slots__ = ("is_bare",)
    pair: Optional[Pair] = None
    is_bare: bool
    """Whether it is made of nothing, by the class that the pickle names."""

    def __new__(cls, *given: Any, **named: Any) -> Answer:
        made = object.__new__(cls)
        made.is_bare = not given and not named
        return made

    def __call__(self, *given: Any, **named: Any) -> Answer:
        return UNKNOWN

    def __setitem__(self, key: Any, value: Any) -> None:
        """A reader puts the items of a subclass of dict here."""

    def append(self, item: Any) -> None:
        """A reader puts the items of a subclass of list or set here."""

    add = extend = append


UNKNOWN = Answer(None)


class Named(type):
    """A listed name that has no substitute."""

    pair: Pair

    def __call__(cls, *given: Any, **named: Any) -> Any:
        made: Any = object.__new__(cls)  # type: ignore[arg-type]
        made.is_bare = False
        return made


class Watched(Substitute):
    """A substitute that judges what is known."""

    __slots__ = ("own", "_reader", "_is_kept")

    def __init__(self, own: Substitute, reader: Foreseer, is_kept: bool) -> None:
        super().__init__(own.name, own, own.role)
        self.own, self._reader, self._is_kept = own, reader, is_kept

    def __call__(self, *given: Any) -> Any:
        if self.name == "copyreg._reconstructor" and (_is_wrapper(given[:1]) or _is_plain(given)):
            return given[0].__new__(given[0])  # as old protocols make it
        if not self._reader.knows(given):
            return self._put_off()
        made = self._call(*given)
        return made if self._is_kept else UNKNOWN

    def real(self) -> Any:
        """The object, of a module that is there; what stands for others."""
        module, _, name = self.name.rpartition(".")
        return super().real() if module in sys.modules else self._reader.named((module, name))

    def new(self, reader: Any, *given: Any) -> Any:
        own: Any = self._call
        if not self._reader.knows(given):
            return self._put_off()
        if not isinstance(own, Class) or self.name.startswith(SHOWING):
            return own.new(reader, *given)
        own.judge_new(reader, given)
        module, _, name = self.name.rpartition(".")
        kind: Any = self._reader.named((module, name))
        return kind.__new__(kind)

    def _put_off(self) -> Any:
        return self._reader.put_off(f"{self.name} is called with something that only a load makes")


class Storage(Answer):
    """A storage of PyTorch."""

    __slots__ = ("_count",)

    def __init__(self, count: int) -> None:
        self._count = count

    def size(self) -> int:
        """How many numbers it has. The reader of a checkpoint asks whether the file has as many."""
        return self._count


class Tensor(Answer):
    """A tensor of PyTorch, within its storage."""

    __slots__ = ()


class Tensors(Substitute):
    """Judges what PyTorch makes of an object of this kind, without PyTorch."""

    __slots__ = ("_reader", "_kind")

    def __init__(self, own: Substitute, reader: Foreseer, kind: type) -> None:
        super().__init__(own.name, own, own.role)
        self._reader, self._kind = reader, kind

    def __call__(self, *given: Any) -> Answer:
        is_one = bool(given) and type(given[0]) is self._kind
        if not is_one or any(map(self._is_unknown, given[1:])):
            why = f"{self.name} is called with something that only a load makes"
            return self._reader.put_off(why)
        if self._kind is Storage:
            judge_tensor(given)
            return Tensor(None)
        judge_parameter(given, Tensor)
        return Answer(None)

    def _is_unknown(self, given: Any) -> bool:
        return not (isinstance(given, dict) or self._reader.knows(given))  # (or hooks, which count)


TENSORS = {
    ("torch._utils", "_rebuild_tensor_v2"): Storage, ("torch._utils", "_rebuild_parameter"): Tensor
}
"""What PyTorch's functions make something of."""


class PutOff(Substitute):
    """A substitute that would import what the list names, to judge."""

    __slots__ = ("_reader",)

    def __init__(self, own: Substitute, reader: Foreseer) -> None:
        super().__init__(own.name, own, own.role)
        self._reader = reader

    def __call__(self, *given: Any) -> Any:
        return self._reader.put_off(f"{self.name} judges its arguments during the load")

    def new(self, reader: Any, *given: Any) -> Any:
        return self(*given)


def _is_plain(given: Tuple[Any, ...]) -> bool:
    """Whether old protocols make an object of a class that is no subclass of a container."""
    named = [it.pair if isinstance(it, Named) else it for it in given]
    return len(named) == 3 and type(named[0]) is tuple and named[1:] == [_OBJECT, None]


_OBJECT = ("builtins", "object")


def _is_wrapper(given: Tuple[Any, ...]) -> bool:
    """Whether this is joblib's wrapper of arrays, for which a guard has a class of its own."""
    return any(isinstance(it, Named) and it.pair in WRAPPERS for it in given)

"""Names that a service imports because a message holds them as text, judged by a guard's list."""

from __future__ import annotations

import builtins
import functools
import itertools
import sys
from collections import OrderedDict, deque
from typing import Any, Callable, Dict, List, Optional, Tuple, cast

from .._guard import Guard
from .._answers import Refused, Verdict
from .._reasons import Reason
from .._refusal import CONTEXT, Refusal
from .._reader import named as substitute_named

_STEADY = (tuple, list, dict, set, frozenset, bytes, bytearray, str, deque, OrderedDict)
"""Types whose iteration gives the same items again."""

_NO_MAPPINGS = (str, bytes, int, float, bool, type(None), list, tuple, set, frozenset)
"""Types of objects that can't be the named arguments of a call."""


class NameRefused(Refused):
    """A job names a function, a method or a callback that isn't on the list."""


class Names:
    """The names on a guard's list as dotted paths, for a service that imports such paths.

    plain: how the service itself imports a path. It is called only where the guard reports and
        doesn't enforce.
    """

    def __init__(self, guard: Guard, plain: Callable[[str], Any]) -> None:
        self._guard, self._plain = guard, plain
        self._of: Optional[Guard] = None
        self._held: Dict[str, List[Tuple[str, str]]] = {}

    @property
    def _pairs(self) -> Dict[str, List[Tuple[str, str]]]:
        """The pairs of each path."""
        guard = self._guard.now()
        if guard is not self._of:
            self._held, self._of = self._paths_of(guard), guard
        return self._held

    @staticmethod
    def _paths_of(guard: Guard) -> Dict[str, List[Tuple[str, str]]]:
        found: Dict[str, List[Tuple[str, str]]] = {}
        # the longest module first, as services try it; a bare name is one of builtins
        for module, name in sorted(guard.allow, key=lambda pair: -len(pair[0])):
            found.setdefault(f"{module}.{name}", []).append((module, name))
            if module == "builtins":
                found.setdefault(name, []).append((module, name))
        return found

    def refuse(self, path: Any, data: bytes = b"") -> None:
        """Reports a path that isn't on the list, and raises NameRefused unless the guard only
        reports. `data` is the pickle that holds it.
        """
        guard, verdict = self._guard, Verdict(
            False, reason=Reason.ImportOffList, pair=_pair_of(path)
        )
        if guard.on_refusal is not None:
            guard.on_refusal(Refusal(verdict, data, CONTEXT.get(), guard.enforce))
        if guard.enforce:
            raise NameRefused(verdict, "a name that the service would import")

    def judge(self, path: Any, data: bytes = b"") -> None:
        """Refuses a path that isn't on the list."""
        if type(path) is not str or path not in self._pairs:
            self.refuse(path, data)

    def imported(self, path: Any, data: bytes = b"") -> Any:
        """The object of a path, imported under the very names that are on the list."""
        pairs = self._pairs.get(path, []) if type(path) is str else []
        if not pairs:
            self.refuse(path, data)
            return self._plain(path)
        for module, name in pairs[:-1]:
            try:
                return self._import(module, name)
            except ImportError:
                continue
        return self._import(*pairs[-1])

    def method(self, instance: Any, name: Any, data: bytes = b"") -> Any:
        """A method of an object that a pickle holds: that of its class, which is on the list."""
        if not self._is_listed_method(instance, name):
            self.refuse(_path_of(instance, name), data)
        return getattr(instance, name)

    def judge_job(self, value: Any, data: bytes) -> Any:
        """The value, after the name in it is judged if a service could take the value for a job:
        for four items, of which the first is a text. A dotted name is imported in any case, others
        matter if the last item can give the arguments of a call. Whether the service takes the
        second item for an object with a method is for that object to say, so both are judged.
        """
        if type(value) in (str, bytes, bytearray) or not _is_iterable(value):
            return value  # (no single letter is a name that can be imported)
        items = list(itertools.islice(value, 5))
        if len(items) != 4 or not isinstance(items[0], str):
            if type(value) not in _STEADY and iter(value) is value:
                self.refuse(type(value).__name__, data)
            return value
        name, instance, _, named = items
        is_call = type(named) not in _NO_MAPPINGS
        if type(name) is not str or "." in name or (is_call and hasattr(builtins, name)):
            self.judge(name, data)
        if is_call and instance is not None and not self._is_listed_method(instance, name):
            self.refuse(_path_of(instance, name), data)
        return value if type(value) in _STEADY else tuple(items)

    def _import(self, module: str, name: str) -> Any:
        """What the guard gives a pickle for a name: perhaps a substitute. It isn't counted."""
        texts = (word.encode() for word in (module, name))
        words = b"".join(b"X" + len(text).to_bytes(4, "little") + text for text in texts)
        guard, name_alone = self._guard.now(), b"\x80\x04" + words + b"\x93"
        if not guard.has_substitutes:
            return Guard.loads(guard, name_alone + b".")
        Guard.loads(guard, name_alone + b"0N.")  # (as a value it would be the real object)
        return substitute_named(module, name, guard.allow)

    def _is_listed_method(self, instance: Any, name: Any) -> bool:
        kind = _class_of(instance)
        module, place = kind.__module__, kind.__qualname__
        if not all(type(word) is str for word in (name, module, place)):
            return False
        if (module, f"{place}.{name}") not in self._guard.allow or name in _state_of(instance):
            return False
        try:  # a pickle may have changed what the class says of itself
            words: List[str] = place.split(".")
            return functools.reduce(getattr, words, cast(Any, sys.modules.get(module))) is kind
        except AttributeError:
            return False


def _class_of(instance: Any) -> Any:
    return instance if isinstance(instance, type) else type(instance)


def _path_of(instance: Any, name: Any) -> str:
    kind = _class_of(instance)
    return f"{kind.__module__}.{kind.__qualname__}.{name}"


def _state_of(instance: Any) -> Any:
    """The attributes of the object itself, which come before those of its class."""
    if isinstance(instance, type):
        return ()
    try:
        return object.__getattribute__(instance, "__dict__")
    except AttributeError:
        return ()


def _is_iterable(value: Any) -> bool:
    return hasattr(type(value), "__iter__") or hasattr(type(value), "__getitem__")


def _pair_of(path: Any) -> Tuple[str, str]:
    """The module and the name that are told for a path. It doesn't say where the module ends: that
    is the longest one that is imported, or all but the last word.
    """
    if type(path) is not str:
        return ("", type(path).__name__)
    module, _, name = path.rpartition(".")
    end = module
    for _ in range(_DEPTH):
        if end in sys.modules:
            return (end, path[len(end) + 1 :])
        end = end.rpartition(".")[0]
    return (module or "builtins", name)


_DEPTH = 16
"""The words of a path, from its end, that are tried as the end of the module."""

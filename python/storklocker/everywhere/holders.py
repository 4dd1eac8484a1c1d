"""The modules and classes that hold the readers of `pickle`, and other places that do."""

from __future__ import annotations

import functools
import gc
import pickle
import sys
import types
from typing import Any, Container, Dict, Iterator, List, NamedTuple, Set, Tuple

_OURS = __name__.partition(".")[0]


_NAMES = ("load", "loads", "Unpickler", "_load", "_loads", "_Unpickler")
ORIGINALS: Dict[str, Any] = {name: vars(pickle)[name] for name in _NAMES if name in vars(pickle)}
"""The readers of `pickle` by name, those in C and those in Python."""


class Change(NamedTuple):
    """A name of a module or class that held a reader."""

    owner: Any
    name: str
    before: Any

    def __str__(self) -> str:
        owner = self.owner
        path = (owner.__module__, owner.__qualname__) if isinstance(owner, type) else (
            owner.__name__,
        )
        return ".".join((*path, self.name))

    def undo(self) -> None:
        """Gives the name its reader again."""
        setattr(self.owner, self.name, self.before)


def replace_all(instead: Dict[int, Any]) -> List[Change]:
    """Gives each module, and each class that a module holds, another reader for each that it holds
    under any name. `instead` has the others by the id of the reader; the same one stays.
    """
    changes: List[Change] = []
    seen: Set[int] = set()
    for module in list(sys.modules.values()):
        if not isinstance(module, types.ModuleType) or _is_ours(module.__name__):
            continue
        _replace_in(module, instead, changes)
        for held in list(vars(module).values()):
            if isinstance(held, type) and id(held) not in seen and not _is_ours(held.__module__):
                seen.add(id(held))
                _replace_in(held, instead, changes)
    return changes


def _is_ours(module: Any) -> bool:
    return module == _OURS or str(module).startswith(_OURS + ".")


def _replace_in(owner: Any, instead: Dict[int, Any], changes: List[Change]) -> None:
    for name, held in list(vars(owner).items()):
        plain = held.__func__ if isinstance(held, staticmethod) else held
        new = instead.get(id(plain))
        if new is None:
            continue
        try:
            if new is not plain:
                setattr(owner, name, new if plain is held else staticmethod(new))
        except (AttributeError, TypeError):  # a type in C: `others` finds it
            continue
        changes.append(Change(owner, name, held))


def others(changes: List[Change], ours: Container[Any]) -> Iterator[str]:
    """Where readers are still held: subclasses but `ours`, default arguments, containers. What is
    loaded from there is not checked whole.
    """
    changed = [change.owner for change in changes if change.name == "load"]
    for name, reader in ORIGINALS.items():
        if isinstance(reader, type):
            for each in _subclasses(reader, ours):
                if not _is_ours(each.__module__) and each not in changed:
                    yield f"a subclass of {name}: {each.__module__}.{each.__qualname__}"
    known = {id(ORIGINALS), *map(id, changes)}
    for reader in ORIGINALS.values():
        if not isinstance(reader, type):
            for holder in gc.get_referrers(reader):
                if id(holder) not in known:
                    yield from _described(reader.__name__, holder)


def _subclasses(of: Any, ours: Container[Any]) -> Iterator[Any]:
    for each in type.__subclasses__(of):
        if each not in ours:
            yield each
            yield from _subclasses(each, ours)


def _described(name: str, holder: Any) -> Iterator[str]:
    if isinstance(holder, types.FrameType) or _is_module_of_ours(holder):
        return
    if isinstance(holder, functools.partial):
        yield f"a functools.partial of {name}"
    elif isinstance(holder, tuple):
        functions = [it for it in gc.get_referrers(holder) if isinstance(it, types.FunctionType)]
        if not functions:
            yield f"a tuple with {name}"
        for function in functions:
            yield f"a default argument with {name}: {function.__module__}.{function.__qualname__}"
    else:
        yield f"a {type(holder).__name__} with {name}"


def _is_module_of_ours(holder: Any) -> bool:
    return isinstance(holder, dict) and _is_ours(holder.get("__name__", ""))


def paths_of(changes: List[Change]) -> Tuple[str, ...]:
    """The names that were replaced, sorted."""
    return tuple(sorted({str(change) for change in changes}))

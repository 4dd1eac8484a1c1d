"""Judges names by trying them: what was done, and what was seen."""

from __future__ import annotations

import contextlib
import importlib
import os
import pkgutil
import sys
import tempfile
import types
import warnings
from pathlib import Path
from typing import Any, Dict, Iterable, Iterator, NamedTuple, Tuple

from . import shapes
from .cases import cases, found, load
from .children import CHANGED, ENDED, SLOW, Children
from .derived import is_derived
from .objects import OBJECTS, fill
from .watch import WATCH, Refused

SECONDS, EVERY = 0.5, 200
"""What a case may take; after how many of them what was there before is looked at."""
MOST, ENOUGH = 2, 40
"""How many cases are told of each kind, and after how many that did something no more are tried."""
_NETWORK = 0x40000000
"""A network of its own, as `unshare` takes it."""
_USER = 0x10000000
Pair = Tuple[str, str]


class Seen(NamedTuple):
    """Something that a name did."""

    what: str
    """A word: of the catalogue's words of harm, or slow, grows, ends, keeps or
    changes.
    """
    how: str
    """Which case did it."""
    detail: str


class Judged(NamedTuple):
    """What was tried of a name, and seen."""

    name: str
    kind: str
    tried: int
    loaded: int
    """How many of these gave an object."""
    seen: Tuple[Seen, ...]


def begin() -> None:
    """Begins to watch this process, and what it forks."""
    warnings.simplefilter("ignore")
    for names, _ in shapes.LISTED.values():
        for module, _ in names:
            importlib.import_module(module)
    sys.addaudithook(WATCH)


def names_in(module: str, deep: bool, methods: bool) -> Iterator[Pair]:
    """The names of a module that it defines, and those of the modules below it if that is asked.
    Raises ImportError.
    """
    its = importlib.import_module(module)
    yield from _own_names(its, methods)
    if not deep:
        return
    for at in pkgutil.walk_packages(getattr(its, "__path__", ()), f"{module}."):
        with contextlib.suppress(Exception):  # (one that lacks another library)
            yield from _own_names(importlib.import_module(at.name), methods)


def _own_names(module: types.ModuleType, methods: bool) -> Iterator[Pair]:
    for word, it in sorted(vars(module).items(), key=lambda row: row[0]):
        of = getattr(it, "__module__", None)
        if not callable(it) or of not in (None, module.__name__):
            continue
        yield module.__name__, word
        if methods and isinstance(it, type):
            yield from ((module.__name__, f"{word}.{name}") for name, own in vars(it).items()
                        if callable(own) and not name.startswith("__"))


def judged(pair: Pair, seconds: float = SECONDS) -> Judged:
    """Tries a name. Raises ImportError or AttributeError if there is none."""
    it = found(*pair)
    left, seen, tried = list(cases(*pair, it)), [], 0
    with tempfile.TemporaryDirectory() as folder:
        children = Children(
            load, [pair], WATCH, (Refused, Refused), seconds, EVERY, 1, lambda: _prepare(folder),
            with_sizes=True)
        while left:
            at, said = next(children.findings(left), (len(left) - 1, ""))
            tried += at + 1
            case, left = left[at], left[at + 1 :]
            if said:
                seen.append(_seen(said, f"{case.how}: {case.shape}"))
                left = [it for it in left if it.shape != case.shape]  # (others tell more)
            if len(seen) == ENOUGH:
                break
    kind = "class" if isinstance(it, type) else "function" if callable(it) else "value"
    kind = "class of built-in methods alone" if is_derived(it) else kind
    return Judged(".".join(pair), kind, tried, children.loaded, tuple(_few(seen)))


def _few(seen: Iterable[Seen]) -> Iterator[Seen]:
    """The first of each kind."""
    counts: Dict[str, int] = {}
    for one in seen:
        counts[one.what] = counts.get(one.what, 0) + 1
        if counts[one.what] <= MOST:
            yield one


def _seen(said: str, how: str) -> Seen:
    said = said.partition("dangerous: ")[2] or said
    what, _, detail = said.partition(": ")
    words = {SLOW: "slow", ENDED: "ends", CHANGED: "changes"}
    if what == CHANGED and detail.startswith("more in "):
        return Seen("keeps", how, detail)
    if what.endswith("of memory") or what == "no memory is left":
        return Seen("grows", how, what)
    return Seen(words.get(what, what), how, detail or what)


def _prepare(folder: str) -> None:
    """What a child does first: it goes into a folder, and leaves the network."""
    with contextlib.suppress(OSError):
        os.setsid()
    leave_network()
    os.chdir(folder)
    if not os.listdir():
        fill(Path())
    sys.path.insert(0, folder)


def leave_network() -> bool:
    """Leaves the network where the system permits that. The audit hook refuses sockets anyway."""
    unshare: Any = getattr(os, "unshare", None)
    if unshare is None:
        import ctypes

        unshare = getattr(ctypes.CDLL(None), "unshare", None)
    if unshare is None:
        return False
    for flags in (_NETWORK, _NETWORK | _USER):
        with contextlib.suppress(OSError):
            if not unshare(flags):  # (that of `os` answers nothing)
                return True
    return False


def network() -> str:
    """What keeps a child from the network."""
    child = os.fork()
    if child == 0:
        os._exit(0 if leave_network() else 1)
    _, status = os.waitpid(child, 0)
    hook = "an audit hook refuses them"
    return f"{hook}, and there is no network" if status == 0 else hook


def shapes_told() -> Iterable[str]:
    """The shapes that are tried, by their names."""
    return [*shapes.kinds(), *OBJECTS]

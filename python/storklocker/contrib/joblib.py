"""joblib's files, such as scikit-learn's models, under a guard.

    from storklocker.contrib.joblib import load_joblib

    model = load_joblib("model.joblib", guard)

joblib writes the raw bytes of arrays between the instructions of a pickle. This module cuts them
out without running anything. In the pickle that remains, joblib's wrapper of arrays is called with
a buffer. That pickle, and those of arrays of objects, are checked before any of them is loaded. You
need neither install joblib nor list its wrapper.
"""

from __future__ import annotations

import pickle
import weakref
from pathlib import Path
from typing import Any, List, Optional, Tuple, Union

from .._guard import Guard
from .._lists import AllowList
from .._checking import JUDGING
from .._refusal import loaded_from, name_of
from .._storklocker import walked
from ..scanning.following import NotFollowed
from ..scanning.joblib_cutting import WRAPPERS, Cut, Cutter
from ..scanning.source import Source
from ._joblib_arrays import MODES, Place, loaded
from ._joblib_files import File, opened

_FIRST = 1 << 16


def load_joblib(file: File, guard: Guard, *, mmap_mode: Optional[str] = None) -> Any:
    """The object of a file that `joblib.dump` wrote, or of a plain pickle.

    file: its name, its bytes, or an open file, which is left right after what was loaded.
    guard: checks the pickle, whose arrays are cut out, and those of arrays of objects. Each has at
        most the guard's `max_bytes`; so has what a packed file (zlib, gzip, bzip2, xz, LZMA; LZ4 if
        its module is there) unpacks to.
    mmap_mode: as for `joblib.load`: None, "r", "r+", "w+" or "c". It has no effect on packed files
        and on what isn't given by name.

    Raises Refused if a pickle is refused; UnpicklingError if the file isn't as joblib has written
    it since 0.10; and otherwise what `pickle.load` raises.
    """
    if mmap_mode not in MODES:
        raise ValueError(f"mmap_mode must be one of {MODES}, not {mmap_mode!r}")
    guard = guard.now()
    with loaded_from(name_of(file)), opened(file, guard) as found:
        source = found.source
        cut, nested = _cut(source, guard)
        if cut.end < source.size and found.finish is None:
            raise guard.UnpicklingError(f"{source.size - cut.end:,} bytes follow the pickle")
        _check(cut.pickle, guard)
        for pickled in filter(None, nested):
            refused = guard.refusal_of(pickled)
            if refused is not None and guard.enforce:
                raise refused
        gaps = list(zip(cut.gaps, nested))
        made = loaded(guard, cut.pickle, gaps, Place(source, found.path, mmap_mode))
        if found.finish is not None:
            found.finish(cut.end)
        return made


def _cut(source: Source, guard: Guard) -> Tuple[Cut, List[bytes]]:
    """What is left of a file, and for each gap the pickle in it, or nothing."""
    pickles: List[bytes] = []

    def length_of(at: int) -> int:
        pickles.append(_pickle_at(source, at, guard.max_bytes))
        return len(pickles[-1])

    try:
        cut = Cutter(source, length_of, lambda _: None).cut()
    except NotFollowed as error:
        raise guard.UnpicklingError(f"this is not a file of joblib: {error}") from None
    held = iter(pickles)
    return cut, [next(held) if gap.is_pickle else b"" for gap in cut.gaps]


def _pickle_at(source: Source, at: int, most: int) -> bytes:
    """The pickle that begins at an offset, for a check; nothing if it has no end."""
    size = _FIRST
    while True:
        data = source.read(at, min(size, most))
        end, is_stopped = walked(data, 0)
        if is_stopped:
            return data[:end]
        if len(data) < size:
            return data[:0]
        size *= 4


_LISTING: weakref.WeakKeyDictionary[Guard, Guard] = weakref.WeakKeyDictionary()


def _check(pickled: bytes, guard: Guard) -> None:
    """Checks a pickle whose arrays were cut out, in which joblib's wrapper is a class of ours."""
    if guard not in _LISTING:
        allow = guard.allow | AllowList(WRAPPERS)
        words = {name: getattr(guard, name) for name in JUDGING}
        _LISTING[guard] = Guard(allow, fix_imports=guard.fix_imports, **words)
    verdict = _LISTING[guard].listed_for(pickled).refusal(pickled)
    if verdict is not None:
        guard.refuse(verdict, pickled)


def dump_joblib_as_pickle(value: Any, path: Union[str, Path]) -> None:
    """Writes a value as a regular pickle, which a guard can check. NumPy arrays take as much space
    as in an uncompressed file of joblib.
    """
    with Path(path).open("wb") as file:
        pickle.dump(value, file, protocol=4)

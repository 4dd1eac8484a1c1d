"""Checkpoints of PyTorch, read under a guard that is given: adapters and a substitute read them."""

from __future__ import annotations

import io
from typing import TYPE_CHECKING, Any, Callable, Dict, List, Optional

from . import _names
from ._storklocker import walked
from .scanning.archives import Archive

if TYPE_CHECKING:
    from ._guard import Guard

LEGACY = 5
"""The pickles of the legacy format: magic number, version, system, object, storages' keys."""


def loaded(data: bytes, guard: Guard, map_location: Any) -> Any:
    """The object of a checkpoint, whose pickles the guard checks before it loads any."""
    is_zip = data[:4] == b"PK\x03\x04"
    sizes: Optional[Dict[str, int]] = None
    if is_zip:
        sizes = check_archive(data, guard)
    else:
        check_legacy(data, guard)
    from torch import serialization

    # Strings of Python 2 are decoded as torch.load does it, unless the guard says how.
    encoding = "utf-8" if guard.old_strings == "unknown" else None
    module = _Module(guard, _Storages(guard, sizes, len(data)))
    try:
        if not is_zip:
            return serialization._legacy_load(
                io.BytesIO(data), map_location, module, encoding=encoding
            )
        with serialization._open_zipfile_reader(io.BytesIO(data)) as archive:
            return serialization._load(archive, map_location, module, encoding=encoding)
    finally:
        _forget_unvalidated()


def _forget_unvalidated() -> None:
    """Has PyTorch forget the sparse tensors of a load that failed, which it would validate with
    those of the next one.
    """
    import torch._utils

    held: Any = getattr(torch._utils, "_sparse_tensors_to_validate", [])
    held.clear()


def check_archive(data: bytes, guard: Guard) -> Dict[str, int]:
    """Checks the pickle of a checkpoint in zip format without loading it. Returns the size of each
    storage, by key. Doesn't need PyTorch.
    """
    archive = Archive(data)
    members = [name for name in archive.sizes if _is_pickle(name)]
    if len(members) != 1:
        raise guard.UnpicklingError(f"{len(members)} members are called data.pkl, not one")
    if not archive.is_plain(data):
        raise guard.UnpicklingError("its zip file is not as torch.save writes it: readers differ")
    _check(archive.read(members[0]), guard)
    front = members[0].rpartition("/")[0] + "/data/"
    return {
        name[len(front) :]: size for name, size in archive.sizes.items() if name.startswith(front)
    }


def check_legacy(data: bytes, guard: Guard) -> None:
    """Checks the pickles of a checkpoint in the legacy format without loading any. Doesn't need
    PyTorch.
    """
    at = 0
    pickles: List[bytes] = []
    for _ in range(LEGACY):
        end, is_stopped = walked(data, at)
        if not is_stopped:
            raise guard.UnpicklingError("this is not a checkpoint: it has too few pickles")
        pickles.append(data[at:end])
        at = end
    for pickled in pickles:
        _check(pickled, guard)


def _check(pickled: bytes, guard: Guard) -> None:
    refused = guard.refusal_of(pickled)
    if refused is not None and guard.enforce:
        raise refused


def _is_pickle(name: str) -> bool:
    return name.replace("\\", "/").rpartition("/")[2].lower() == "data.pkl"


class _Storages:
    """Judges what a pickle says of storages, because PyTorch believes it."""

    def __init__(self, guard: Guard, sizes: Optional[Dict[str, int]], most: int) -> None:
        self._guard, self._sizes, self._most = guard, sizes, most

    def judged(self, saved: Any) -> Any:
        """The persistent id of a storage or of a module, without what would read source code."""
        kind = saved[0] if type(saved) is tuple and saved else None
        kind = kind.decode("latin-1") if type(kind) is bytes else kind
        if kind == "module" and len(saved) > 1:
            return (kind, saved[1], None, None)
        if kind != "storage" or len(saved) < 5 or not self._fits(*saved[1:5]):
            raise self._guard.UnpicklingError("a persistent id names no storage that fits")
        return saved

    def _fits(self, storage: Any, key: Any, location: Any, count: Any) -> bool:
        """Whether the file has as many bytes as the storage asks for."""
        import torch

        if type(key) not in (str, int) or type(location) not in (str, bytes):
            return False  # (others would be shown)
        kind = getattr(storage, "dtype", None)
        if not isinstance(kind, torch.dtype):
            kind = torch.uint8
        size = self._most if self._sizes is None else self._sizes.get(str(key), -1)
        if type(count) is not int or count < 0:
            return False
        return bool(count * torch.empty((), dtype=kind).element_size() <= size)


class _Module:
    """What PyTorch takes for the module `pickle`."""

    def __init__(self, guard: Guard, storages: _Storages) -> None:
        self._guard = guard
        self.load = guard.load
        self.Unpickler = _unpickler(guard, storages)

    def __getattr__(self, name: str) -> Any:
        return getattr(self._guard, name)


def _unpickler(guard: Guard, storages: _Storages) -> Any:
    plain: Any = guard.Unpickler

    class Unpickler(plain):  # type: ignore[misc]
        """Imports no other name than a listed one, and asks for no storage that doesn't fit."""

        _storage_of: Optional[Callable[[Any], Any]] = None

        def __setattr__(self, name: str, value: Any) -> None:
            super().__setattr__("_storage_of" if name == "persistent_load" else name, value)

        def persistent_load(self, saved: Any, /) -> Any:
            if self._storage_of is None:
                raise guard.UnpicklingError("a persistent id, but no storages")
            return self._storage_of(storages.judged(saved))

        def find_class(self, module: str, name: str, /) -> Any:
            pair, allow = (module, name), guard.allow.for_loading()
            listed = pair in allow or guard.fix_imports and _names.renamed(pair) in allow
            if guard.enforce and not listed:
                raise guard.UnpicklingError(f"PyTorch imports {module}.{name}, which isn't listed")
            return super().find_class(module, name)

    return Unpickler

"""Checks and loads many pickles with keys. The adapters of Dask and Spark share it."""

from __future__ import annotations

from typing import Any, Iterable, List, NamedTuple, Optional, Tuple

from .._guard import Guard
from .._answers import Import, Refused
from ._loading import Loader


class Row(NamedTuple):
    """The result for one pickle."""

    key: Any
    accepted: bool
    """Whether the guard accepts it and, if it was to be loaded, loading succeeded."""
    why: Optional[str] = None
    """The text of the error, if there was one."""
    value: Any = None
    """The value, if it was loaded."""
    missing: Tuple[Import, ...] = ()
    """Every import that the list lacks, each once, in order."""


def checked(pairs: Iterable[Tuple[Any, Any]], guard: Guard) -> List[Row]:
    """A row for each pair of a key and a pickle, which is only checked."""
    return [_checked(key, data, guard) for key, data in pairs]


def loaded(pairs: Iterable[Tuple[Any, Any]], guard: Guard) -> List[Row]:
    """A row for each pair of a key and a pickle, with its value."""
    loader = Loader(guard)
    return [_loaded(key, data, loader) for key, data in pairs]


def _checked(key: Any, data: Any, guard: Guard) -> Row:
    try:
        whole = data if type(data) is bytes else bytes(memoryview(data))
        refused: Optional[Exception] = guard.refusal_of(whole)
    except TypeError as error:
        refused = error
    return Row(key, True) if refused is None else _refused(key, refused)


def _loaded(key: Any, data: Any, loader: Loader) -> Row:
    try:
        return Row(key, True, None, loader.loads(data))
    except (loader.UnpicklingError, TypeError) as error:
        return _refused(key, error)


def _refused(key: Any, error: Exception) -> Row:
    missing = error.verdict.missing if isinstance(error, Refused) else ()
    return Row(key, False, str(error), None, missing)

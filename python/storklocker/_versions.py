"""Versions that pickles have, of which libraries warn: Python keeps each text that it has warned of
until the process ends.
"""

from __future__ import annotations

from typing import Any, Set

from ._answers import Misused
from ._attributes import judge_attributes
from ._weighing import keys_of

MOST, _LONGEST = 100, 100
"""How many versions are told, and the longest."""
_OTHER = "another"
_told: Set[str] = set()


def version_of(given: Any) -> str:
    """A version as a pickle has it; one of few words if many were told."""
    if type(given) is not str or len(given) > _LONGEST:
        raise Misused("the version of an object isn't text")
    if given not in _told and len(_told) >= MOST:
        return _OTHER
    _told.add(given)
    return given


def model_state(reader: Any, model: Any, state: Any) -> Any:
    """The state of a model of Django, which says on loading of which version it is, and is hashed
    by its key.
    """
    if type(state) is not dict:
        raise Misused("the state of a model isn't a dict")
    judge_attributes(model, state.items(), False)
    keys = [it.attname for it in model._meta.concrete_fields if it.primary_key or it.remote_field]
    keys_of(reader, [state.get(name) for name in keys])
    version = state.get("_django_version")
    return {**state, "_django_version": version_of(version)} if version is not None else state

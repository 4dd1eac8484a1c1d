"""Pickles at the first byte, one or a row of them; torch's files of before its zip files."""

from __future__ import annotations

import re

from .caches import packed_behind
from .readings import Found, Place, examine
from .recognized import is_safetensors
from .stores import is_pickle

_TORCH = b"\x80\x02\x8a\nl\xfc\x9cF\xf9 j\xa8P\x19."
"""The pickle in front of torch's older files, as `torch.save` writes it."""
_LENGTH = re.compile(rb"\x80[\0-\5]\0{6}")
"""A PROTO behind which every reader stops: the length of a header of safetensors may be one."""
_TORCH_PICKLES = 5
"""A number, the version, the machine, the object, the keys of its storages, which follow raw."""


def pickle_reading(place: Place) -> Found:
    """What `pickle.load` gets to, once or again and again."""
    if place.source.place(0) in place.budget.shelves:
        return False
    if _LENGTH.match(place.source.front()) and is_safetensors(place.source):
        return False
    if place.is_raw and not is_pickle(place.source, 0, place.budget):
        return False
    packed = packed_behind(place.source, place.budget)
    if packed:
        yield place.piece(place.around, most=1)
        rest = place.source.part(packed, place.source.size)
        yield from examine(place.inside("", rest, "after a pickle"))
        return True
    if not place.source.front().startswith(_TORCH):
        taken = yield place.piece(place.around)
        return taken is not None
    taken = yield place.piece("torch", 0, True, _TORCH_PICKLES)
    if taken:  # a reader that goes on gets to the numbers
        yield place.piece("after a torch file", taken)
    return True

"""The imports of a pickle that a list doesn't permit."""

from __future__ import annotations

from ._answers import Import
from ._limits import without_costs
from ._pairs import records, with_room
from ._storklocker import imports as _imports
from ._storklocker import verdict

TYPE_CHECKING = False
if TYPE_CHECKING:
    from typing import Dict, Iterable, Iterator, List, Tuple

    from ._lists import AllowList
    from ._pairs import Names

MOST_NAMES = 1 << 26
"""The most bytes of names that are reported of a pickle."""

_FEW = 10


def missing_of(
    data: bytes, allow: AllowList, settings: bytes
) -> Tuple[List[Import], bool]:
    """The imports that the list doesn't permit, each once, and whether some are left out."""
    own = without_costs(settings)
    try:
        _, room = with_room(lambda size: _imports(data, allow, own, size), MOST_NAMES)
    except MemoryError:
        return imports_in(_first_missing(data, allow, own)), True
    found = dict.fromkeys(it for it in records(room) if not allow.has(it))
    return imports_in(found), False


def _first_missing(data: bytes, allow: AllowList, settings: bytes) -> Iterator[Names]:
    """The first few imports that the list doesn't permit, within `MOST_NAMES` bytes of names. Each
    takes a check under a longer list.
    """
    listed, room = allow, MOST_NAMES
    for _ in range(_FEW):
        pair = verdict(data, listed, settings).pair
        room -= 0 if pair is None else len(pair[0]) + len(pair[1])
        if pair is None or room < 0:
            return
        names = (pair[0].encode(), pair[1].encode())
        listed = listed.with_one(names)
        yield names


def imports_in(names: Iterable[Names]) -> List[Import]:
    """The imports with these names. A text that comes again is kept once."""
    texts: Dict[bytes, str] = {}

    def text(name: bytes) -> str:
        return texts.get(name) or texts.setdefault(name, name.decode())

    return [
        Import(None, None) if module is None or name is None else Import(text(module), text(name))
        for module, name in names
    ]

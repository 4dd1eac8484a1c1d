"""The imports of a pickle."""

from __future__ import annotations

from . import _names
from ._answers import Import, Refused
from ._limits import without_costs
from ._lists import STANDARD, AllowList, settings_of
from ._missing import imports_in
from ._pairs import records, with_room
from ._storklocker import imports as _imports

TYPE_CHECKING = False
if TYPE_CHECKING:
    from typing import List, Optional, Tuple

    from ._answers import Verdict
    from ._limits import Limits

_NOTHING = AllowList([])


def imports(
    data: bytes,
    *,
    limits: Optional[Limits] = None,
    old_strings: str = "unknown",
    fix_imports: bool = True,
) -> List[Import]:
    """The imports that any run of the pickle makes, in order and with repetitions.

        >>> storklocker.imports(b"cos\\nsystem\\n.")
        [Import(module='os', name='system')]

    An import that the pickle doesn't reveal is `Import(None, None)`. With `fix_imports`, imports of
    protocols 0 to 2 have the names of Python 3, which a load imports. Limits on costs don't apply.
    Raises Refused if no list makes the pickle acceptable.
    """
    verdict, room = imports_of(data, _NOTHING, limits, old_strings)
    if not verdict:
        from ._hints import hint_of  # few pickles are refused

        hint = hint_of(verdict, lambda at, count: data[at : at + count], limits or STANDARD)
        raise Refused(verdict, hint)
    return _fixed(data, imports_in(records(room)), fix_imports)


def _fixed(data: bytes, found: List[Import], fix_imports: bool) -> List[Import]:
    """The imports of a pickle under the names that are imported."""
    if not (fix_imports and _names.are_old(data)):
        return found
    return [
        it if it.module is None or it.name is None
        else Import(*_names.renamed((it.module, it.name)))
        for it in found
    ]


def missing(
    data: bytes,
    allow: AllowList,
    *,
    limits: Optional[Limits] = None,
    old_strings: str = "unknown",
    fix_imports: bool = True,
) -> List[Import]:
    """The imports of the pickle that the list doesn't permit, each once.

        >>> storklocker.missing(b"cos\\nsystem\\n.", storklocker.AllowList([]))
        [Import(module='os', name='system')]

    The limits of the list apply. If no list makes the pickle acceptable, these are the imports
    before its fault. If the names take more than 64 MiB, these are only the first of them.
    """
    listed = allow.listed_for(data, fix_imports)
    found, _ = listed.missing_in(data, settings_of(allow, limits, old_strings))
    return list(dict.fromkeys(_fixed(data, found, fix_imports)))


def imports_of(
    data: bytes, allow: AllowList, limits: Optional[Limits], old_strings: str
) -> Tuple[Verdict, bytes]:
    """Checks a pickle, permitting every import. The limits of the list apply. Returns the Verdict
    and the encoded imports; of a refused pickle, those of the instructions before `at`.
    """
    settings = without_costs(settings_of(allow, limits, old_strings))
    (verdict,), room = with_room(lambda size: _imports(data, allow, settings, size))
    return verdict, room

"""A guarded load in one call."""

from ._guard import Guard
from ._lists import AllowList

TYPE_CHECKING = False
if TYPE_CHECKING:
    from typing import Any, Iterable, Optional

    from ._limits import Limits


def loads(
    data: "Any",
    allow: AllowList,
    *,
    limits: "Optional[Limits]" = None,
    old_strings: str = "unknown",
    fix_imports: bool = True,
    encoding: "Optional[str]" = None,
    errors: "Optional[str]" = None,
    buffers: "Optional[Iterable[Any]]" = None,
    build: str = "made",
) -> "Any":
    """`pickle.loads` for untrusted input: short for `Guard(allow, ..).loads(data, ..)`.

        >>> storklocker.loads(pickle.dumps([1, 2]), storklocker.AllowList([]))
        [1, 2]

    Raises Refused if the pickle is refused, MoreBytes if more bytes follow it, and otherwise what
    `pickle.loads` raises. A buffer other than `bytes` is copied first, so that nobody changes the
    bytes between the check and the load.
    """
    if limits is None and old_strings == "unknown" and fix_imports is True and build == "made":
        guard = _plain_guard(allow)
    else:
        words: Any = {"limits": limits, "old_strings": old_strings, "fix_imports": fix_imports}
        guard = Guard(allow, build=build, **words)
    if encoding is None and errors is None and buffers is None:
        return guard.loads(data)
    return guard.loads(data, encoding=encoding, errors=errors, buffers=buffers)


def _plain_guard(allow: AllowList) -> "Guard":
    """The guard of a list without other settings, which the list caches."""
    if isinstance(allow, AllowList) and allow.kept is not None:
        held: Guard = allow.kept
        return held
    guard = Guard(allow)
    allow.kept = guard
    return guard

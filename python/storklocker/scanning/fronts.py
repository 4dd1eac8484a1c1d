"""What the first bytes of a file settle, before the others are there."""

from __future__ import annotations

from pathlib import Path
from typing import Optional

from .._checking import check
from .._lists import AllowList
from .._reasons import Reason
from .joblib_files import WRAPPER_NAMES

_PROTO = b"\x80"
_SETTLED = frozenset(
    (
        Reason.UnknownOpcode, Reason.BadArgument, Reason.ExtensionCode,
        Reason.UnsupportedProtocol, Reason.MissingMark, Reason.MissingItem, Reason.MissingMemo,
        Reason.OddItems, Reason.WrongClass, Reason.NotText, Reason.UnknownImport, Reason.LeftOver,
    )
)
"""The reasons that, in bytes that claim to be a pickle, neither more bytes nor the size take back.
An import off the list counts in all bytes: their reader gets to it.
"""


def is_refused(path: Path, allow: Optional[AllowList]) -> bool:
    """Whether a guard with the list refuses every file that begins with these bytes. Where joblib's
    arrays may lie between the instructions, only the whole file tells.
    """
    if allow is None or any(map(allow.permits, WRAPPER_NAMES)):
        return False
    data = path.read_bytes()
    found = check(data, allow)
    if found.reason is Reason.ImportOffList:
        return True
    return not found and data.startswith(_PROTO) and found.reason in _SETTLED

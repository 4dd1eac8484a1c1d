"""Which file beside another has the places of its values.

That of `dbm.dumb` is a `.dir` beside a `.dat`, that of torch's distributed checkpoints `.metadata`
in the folder.
"""

from __future__ import annotations

VALUES, PLACES = ".dat", ".dir"
PART, METADATA = ".distcp", ".metadata"


def places_of(path: str) -> str:
    """The path of the file that has the places, if this may be one of values."""
    if path.lower().endswith(VALUES):
        return path[: -len(VALUES)] + PLACES
    if path.lower().endswith(PART):
        folder, slash, _ = path.rpartition("/")
        return f"{folder}{slash}{METADATA}"
    return ""

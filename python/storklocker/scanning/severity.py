"""The kinds of findings, how bad each is, and what to do about it."""

from __future__ import annotations

from typing import Dict, NamedTuple

REFUSED = "refused"
"""It isn't permitted by the list."""
DANGER = "danger"
"""It is known to run code that the pickle chooses, or to lead to a name that does."""
UNREADABLE = "unreadable"
"""It couldn't be read to its end, so the rest is unknown."""
UNDECIDED = "undecided"
"""The list permits its names, but only a load shows whether it uses them as picklers do."""
WARNING = "warning"
"""It opens files, reaches the network, changes the process, or permits more than it says."""
UNKNOWN = "unknown"
"""It has a name that nobody has judged, which may do anything."""
NOTE = "note"
"""It is told, and no more."""

UNRECOGNIZED = "unrecognized"
"""What a file is called that no reading knows, and which isn't known to be something else."""

SEVERITIES = (REFUSED, DANGER, UNREADABLE, UNDECIDED, WARNING, UNKNOWN, NOTE)
"""From the worst to the least."""
MILD = frozenset((UNKNOWN, NOTE))
"""What isn't known to do harm."""


class Kind(NamedTuple):
    """A kind of finding."""

    severity: str
    title: str
    """What it is, in a few words."""
    advice: str
    """What to do about it, in one sentence."""


KINDS: Dict[str, Kind] = {
    "refused": Kind(
        REFUSED,
        "The list refuses the pickle",
        "Don't load it. If you trust where it comes from, `storklocker learn` writes the names that"
        " it needs.",
    ),
    "undecided": Kind(
        UNDECIDED,
        "The list has names that a guard loads through substitutes",
        "Load it through a guard with this list, which judges how it uses them. Pass --guarded if"
        " you do.",
    ),
    "dangerous-import": Kind(
        DANGER,
        "The pickle imports a name that runs code",
        "Don't load it. Delete it, or ask its author why it needs this name.",
    ),
    "hidden-import": Kind(
        DANGER,
        "The pickle hides what it imports",
        "Don't load it: no library writes such a pickle.",
    ),
    "broken-pickle": Kind(
        UNREADABLE,
        "The pickle can't be followed to its end",
        "Don't load it: a reader may run what comes before the fault. Get the file again.",
    ),
    "raw-arrays": Kind(
        UNREADABLE,
        "Arrays lie between the instructions of the pickle",
        "Load it only if you trust where it comes from.",
    ),
    "broken-container": Kind(
        UNREADABLE,
        "The file is damaged",
        "Don't load it: the rest is unknown after the damage. Get the file again.",
    ),
    "unknown-container": Kind(
        UNREADABLE,
        "The file is packed in a way that a scan can't unpack",
        "Unpack it, and scan its contents.",
    ),
    "differing-readings": Kind(
        UNREADABLE,
        "Readers differ about the contents of the file",
        "Don't load it: no library writes such a file. Get it again, or pack it again.",
    ),
    "too-much": Kind(
        UNREADABLE,
        "The file holds more than a scan reads of one file",
        "Don't load it, or unpack it and scan its parts.",
    ),
    "unreadable": Kind(
        UNREADABLE,
        "The file can't be read",
        "Make it readable and scan it again, or leave it out with --exclude.",
    ),
    "risky-import": Kind(
        WARNING,
        "The pickle imports a name that does more than hold data",
        "Load it only if you know why it needs this name, and trust where it comes from.",
    ),
    "costly-keys": Kind(
        WARNING,
        "Loading the pickle may take very long, or crash the reader",
        "Load it only through a guard, which refuses it. If you trust where it comes from, raise"
        " the guard's `Limits`.",
    ),
    "changed-import": Kind(
        WARNING,
        "The pickle changes an imported object, for all who use it",
        "Don't load it: no pickler writes such a pickle, and a guard refuses it.",
    ),
    "called-answer": Kind(
        WARNING,
        "The pickle calls the result of its own call",
        "Don't load it: almost no library writes such a pickle, and a guard refuses it.",
    ),
    "wildcard": Kind(
        WARNING,
        "The list has a wildcard, which permits nothing",
        "Write each name: a list has no wildcards. `storklocker learn` writes the names that"
        " trusted files need.",
    ),
    "runs-code": Kind(
        WARNING,
        "Readers of the file run code in it that a scan doesn't read",
        "Load it only if you trust where it comes from.",
    ),
    "holds-code": Kind(
        NOTE,
        "The file is code, which a scan doesn't read",
        "Run it only if you trust where it comes from.",
    ),
    "unread-pickles": Kind(
        UNREADABLE,
        "The file holds pickles that a scan doesn't read",
        "Load it only if you trust where it comes from.",
    ),
    "dangling-link": Kind(
        NOTE,
        "A link leads nowhere",
        "Scan again where the link leads to a file, or delete it.",
    ),
    "unrecognized": Kind(
        NOTE,
        "The format of the file is unknown",
        "Find out which program reads it, and whether that program runs anything in it.",
    ),
    "text-import": Kind(
        NOTE,
        "A text begins like the import of a name that nobody has judged",
        "Read it: if it is a text for people, nothing needs to be done.",
    ),
    "unknown-import": Kind(
        UNKNOWN,
        "The pickle imports a name that nobody has judged",
        "Don't load it before you know what this name does when a pickle calls it. If you trust"
        " where it comes from, `storklocker learn` writes the list for --allow.",
    ),
}
"""By the name that reports give it, which never changes."""

"""What to do about a refused name. Imported when a refusal is printed."""

from __future__ import annotations

from typing import Any, Tuple

_LONGEST = 64
"""The most characters of a name, or of what is loaded, that a hint shows."""


def hint_of(pair: Tuple[str, str]) -> str:
    """Why not to list a dangerous name, or how to list another one. Empty for a name that is none,
    or for a long one that no ready-made list has: a stranger may have chosen it to be printed.
    """
    module, name = pair
    words = [*module.split("."), *name.split(".")]
    if not all(word.isascii() and word.isidentifier() for word in words):
        return ""
    from ._purposes import known_of, said_of  # (reading the lists takes a while)
    from .scanning.dangers import danger_of  # (reading its table takes a while)

    said = said_of(pair)
    if not said and len(module) + len(name) > _LONGEST:
        return ""
    danger = danger_of(pair)
    if danger:
        return f"{danger} Don't list it" + (f": a substitute {said}" if said else "")
    named = f"{module}:{name}" if "." in name else f"{module}.{name}"
    known = f"{known_of(pair)}; " if said else ""
    return f"{known}to permit it: storklocker list add LIST {named}"


def origin_of(context: Any) -> str:
    """What is being loaded, as a refusal shows it: in one line, and short."""
    try:
        shown = "" if context is None else ascii(context)
    except Exception:
        shown = "?"
    return shown if len(shown) <= _LONGEST else f"{shown[:_LONGEST]}.."

"""The names and the files of the ready-made lists."""

from __future__ import annotations

import functools
from pathlib import Path
from typing import List, Tuple

_FOLDER = Path(__file__).with_name("lists")
_SHORT = {"SKLEARN": "SCIKIT_LEARN", "TORCH": "TORCH_TENSORS"}
"""The names by which libraries are known, where a list has another."""


@functools.lru_cache(maxsize=1)
def names() -> Tuple[str, ...]:
    """The names of the lists in `storklocker.lists`."""
    return tuple(sorted(path.stem.upper() for path in _FOLDER.glob("*.toml")))


def name_of(word: str) -> str:
    """The name of a list that is called `torch`, `@torch`, `torch-nn` or `TORCH_NN`. Raises
    ValueError if there is none.
    """
    name = word.strip().lstrip("@").replace("-", "_").upper()
    name = _SHORT.get(name, name)
    if name not in names():
        raise ValueError(f"{word} isn't one of the lists {', '.join(words())}")
    return name


def words() -> List[str]:
    """The lists as a command takes them."""
    short = {name: word for word, name in _SHORT.items()}
    return [f"@{short.get(name, name).lower().replace('_', '-')}" for name in names()]


def file_of(name: str) -> Path:
    """The file of a list, by its name."""
    return _FOLDER / f"{name.lower()}.toml"

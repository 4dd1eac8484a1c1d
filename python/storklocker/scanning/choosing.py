"""Which of the files in a folder are scanned."""

from __future__ import annotations

import fnmatch
import os
import re
from typing import Iterable, List, Optional, Pattern


class Choice:
    """The files and folders that `--include` and `--exclude` choose.

    A pattern without a slash is compared with the name, one with a slash with the path. A folder is
    entered unless its name or path is excluded.

    left_out: the number of files and folders that were left out.
    """

    def __init__(self, include: Iterable[str] = (), exclude: Iterable[str] = ()) -> None:
        self._include, self._exclude = _compiled(include), _compiled(exclude)
        self.left_out = 0

    def takes(self, path: str, is_folder: bool = False) -> bool:
        """Whether to scan a file, or to enter a folder. Counts those that are left out."""
        if not (self._exclude or self._include):
            return True
        taken = not _matches(self._exclude, path)
        if taken and not is_folder and self._include:
            taken = _matches(self._include, path)
        self.left_out += not taken
        return taken


class _Patterns:
    def __init__(self, patterns: List[str]) -> None:
        self.names = _joined([it for it in patterns if "/" not in it])
        self.paths = _joined([it for it in patterns if "/" in it])


def _compiled(patterns: Iterable[str]) -> Optional[_Patterns]:
    kept = [pattern.rstrip("/") for pattern in patterns]
    return _Patterns(kept) if kept else None


def _joined(patterns: List[str]) -> Optional[Pattern[str]]:
    return re.compile("|".join(map(fnmatch.translate, patterns))) if patterns else None


def _matches(patterns: Optional[_Patterns], path: str) -> bool:
    if patterns is None:
        return False
    is_named = patterns.names is not None and patterns.names.match(os.path.basename(path))
    return bool(is_named or patterns.paths is not None and patterns.paths.match(path))

"""Writes list files from the imports of trusted files, and from what guards were asked for."""

from __future__ import annotations

import time
from typing import Dict, Iterable, Iterator, List, Tuple

from .._learning import LARGEST, Seen, read_log
from .._names import today
from .._purposes import purpose_of
from .._writing import quoted
from .dangers import danger_of, judged
from .members import GETATTR, Members
from .report import Report, shown
from .words import Word

_SHOWN = 5
_UNJUDGED = "  # Nobody has judged what a pickle can do with these: read each before you permit it."
Pair = Tuple[str, str]


class Learned:
    """The pairs that trusted files import or that a log has, each with what needs it."""

    def __init__(self) -> None:
        self.pairs: Dict[Pair, List[str]] = {}
        """Each pair with the files that need it."""
        self.seen: Dict[Pair, Seen] = {}
        """Each pair of a log with how often it was asked for."""
        self.left_out: List[Report] = []
        self.members = Members()
        """What these files ask `getattr` for."""
        self._enums: Dict[str, None] = {}
        """What the log has of that."""

    def add(self, reports: Iterable[Report]) -> None:
        """Adds the imports of files. Leaves out unreadable files and unknown imports."""
        for report in reports:
            if report.is_whole:
                for module, name in report.imports:
                    if module is not None and name is not None:
                        self.pairs.setdefault((module, name), []).append(report.path)
            is_known = report.is_whole or report.status is Word.NO_PICKLE
            if not is_known or (None, None) in report.imports:
                self.left_out.append(report)

    def add_log(self, path: str) -> None:
        """Adds the names of a file that a guard's `learning` has written."""
        with open(path, "rb") as opened:
            text = opened.read(2 * LARGEST).decode("utf-8", "replace")
        for (module, name, *enums), seen in read_log(text).items():
            pair = today((module, name))  # (of a log of an earlier version)
            if enums:
                self._enums[enums[0]] = None
                continue
            self.seen[pair] = self.seen[pair].and_(seen) if pair in self.seen else seen
            self.pairs.setdefault(pair, [])

    def lines(self) -> Iterator[str]:
        """The list file: sorted, each pair with what needs it. What is known to be dangerous is in
        a comment, with the reason: the names may be a stranger's.
        """
        yield "# Learned: review it before use. Dangerous names are in comments."
        yield "version = 2"
        yield ""
        yield "[imports]"
        modules: Dict[str, List[str]] = {}
        for module, name in sorted(self.pairs):
            modules.setdefault(module, []).append(name)
        for module, names in modules.items():
            yield f"{quoted(module)} = ["
            unknown = [name for name in names if judged(module, name) is None]
            yield from (self._line(module, name) for name in names if name not in unknown)
            if unknown:
                yield _UNJUDGED
                yield from (self._line(module, name) for name in unknown)
            yield "]"
        yield from self._substitutes()

    @property
    def enums(self) -> List[str]:
        """The enums of whose members `getattr` is asked for."""
        return sorted({*self.members.enums, *self._enums})

    def _substitutes(self) -> Iterator[str]:
        """The section that says what a guard loads in place of `getattr`."""
        if self.enums:
            yield ""
            yield "[substitutes]"
            yield f'"{GETATTR}" = "{"; ".join(f"members of {name}" for name in self.enums)}"'
            yield from (f"# This isn't permitted: {call}" for call in self.members.others)

    def _line(self, module: str, name: str) -> str:
        why, needed = danger_of((module, name)), self._needed_by((module, name))
        if self.enums and f"{module}.{name}" == GETATTR:
            why = ""  # (it has a substitute)
        what = purpose_of((module, name))
        line = f"{quoted(name)},  # {needed}" + (f". It {what}" if what else "")
        return f"  # {line}. {why}" if why else f"  {line}"

    def _needed_by(self, pair: Pair) -> str:
        files, seen = self.pairs[pair], self.seen.get(pair)
        words = [shown(file, 80) for file in files[:_SHOWN]]
        if len(files) > _SHOWN:
            words[-1] += f" and {len(files) - _SHOWN} more"
        if seen is not None:
            key = f" for {shown(seen.key, 80)}" if seen.key else ""
            times = "once" if seen.times == 1 else f"{seen.times:,} times"
            words.append(f"requested {times}, {_day(seen.first)}{key} to {_day(seen.last)}")
        return ", ".join(words)


def _day(seconds: int) -> str:
    try:
        return time.strftime("%Y-%m-%d", time.gmtime(seconds))
    except (OverflowError, ValueError, OSError):
        return "?"

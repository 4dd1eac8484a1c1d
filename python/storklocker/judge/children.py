"""Tries cases in forked processes, which tell what is wrong with one.

A case mustn't end the process, take much time or memory, do what the process watches for, or change
what is older. What a child shows of a case is tried again in fresh ones, alone and else behind
those that were before it, and counts only if each of them shows it. Time is that of the processor,
memory the most that a child has had since it began.
"""

from __future__ import annotations

import os
import resource
import signal
from typing import Any, Callable, Iterable, Iterator, List, Optional, Protocol, Sequence, Tuple

from .before import changed, older

SECONDS, MEMORY, AGAIN = 2.0, 1 << 30, 3
"""What a case may take, and how often a finding is tried again."""
SLOW, MUCH, ENDED = "it takes too long", "bytes of memory", "the process ended"
CHANGED = "it changes what was there before"
"""What findings begin with, or end with."""
_ADDRESSES = 4 << 30
"""What a child may ask for in addition to what it has."""
_STACK, _FILES = 8 << 20, 1 << 20
"""The most bytes of its stack, and of a file that it writes."""


class Watch(Protocol):
    """What looks on while a case is tried: an audit hook."""

    is_on: bool
    seen: List[str]


class Children:
    """Tries cases in forked processes, and counts those that were accepted, and loaded.

    load: what is tried with a case; it raises what `refusals` names, first where a case isn't
        accepted, then where it is and isn't loaded.
    prepare: what a child does first.
    with_sizes: whether modules mustn't keep more than before.
    """

    def __init__(
        self,
        load: Callable[[Any], Any],
        pairs: Iterable[Tuple[str, str]],
        watch: Watch,
        refusals: Tuple[Any, Any],
        seconds: float = SECONDS,
        every: int = 1,
        again: int = AGAIN,
        prepare: Callable[[], Any] = lambda: None,
        with_sizes: bool = False,
    ) -> None:
        self._load, self._pairs, self._watch = load, list(pairs), watch
        self._refusals, self._prepare, self._with_sizes = refusals, prepare, with_sizes
        self._seconds, self._every, self._times = seconds, every, again
        self._began = 0
        self.accepted = self.loaded = 0

    def findings(self, cases: Sequence[Any]) -> Iterator[Tuple[int, str]]:
        """The place of each of these cases with which something is wrong, and what is."""
        at = 0
        while at < len(cases):
            counts, last, said = self._ran(cases[at:], self._every)
            row = cases[at : at + last + 1]
            if said is not None:
                counts, last, _ = self._ran(row, 1)  # (which of them is the first?)
            self.accepted, self.loaded = self.accepted + counts[0], self.loaded + counts[1]
            told = None if said is None else self._again(row[: last + 1])
            if told is not None:
                yield at + last, told
            at += last + 1

    def _again(self, row: Sequence[Any]) -> Optional[str]:
        """What each of some fresh processes shows of the last of a row of cases: of it alone, or
        else of all of them.
        """
        for tried, where in ((row[-1:], ""), (row, f", after {len(row) - 1} others")):
            for _ in range(self._times):
                told = self._ran(tried, 1)[2]
                if told is None:
                    break
            else:
                return f"{told}{where}"
        return None

    def _ran(self, cases: Sequence[Any], every: int) -> Tuple[Tuple[int, int], int, Optional[str]]:
        """The numbers of those accepted and loaded; the last that was begun; what is wrong."""
        reading, writing = os.pipe()
        child = os.fork()
        if child == 0:
            os.close(reading)
            try:
                self._try(cases, every, writing)
            finally:
                os._exit(0)
        os.close(writing)
        with os.fdopen(reading, "rb") as told:
            lines, _, said = told.read().partition(b"\n")
        _, status = os.waitpid(child, 0)
        counts = (lines.count(b"m") + lines.count(b"l"), lines.count(b"l"))
        last = max(lines.count(b"b") - 1, 0)
        if said:
            return counts, last, None if said == b"done" else said.decode("utf-8", "replace")
        how: Any = os.WTERMSIG(status) if os.WIFSIGNALED(status) else f"status {status}"
        return counts, last, SLOW if how == signal.SIGPROF else f"{ENDED}: {how}"

    def _try(self, cases: Sequence[Any], every: int, writing: int) -> None:
        self._limit()
        self._prepare()
        self._began = _most_memory()
        before = self._older()
        for number, case in enumerate(cases, 1):
            os.write(writing, b"b")
            how, found = self._tried(case)
            os.write(writing, how)
            if found is None and (number % every == 0 or number == len(cases)):
                place = changed(before, self._older())
                found = None if place is None else f"{CHANGED}: {place}"
            if found is not None:
                os.write(writing, b"\n" + found.encode("utf-8", "replace"))
                return
        os.write(writing, b"\ndone")

    def _older(self) -> Any:
        return older(self._pairs, self._with_sizes)

    def _limit(self) -> None:
        """Limits this process, and has it print nothing."""
        with open("/proc/self/statm", encoding="ascii") as held:
            most = int(held.read().split()[0]) * resource.getpagesize() + _ADDRESSES
        for kind, bound in (
            (resource.RLIMIT_CORE, 0), (resource.RLIMIT_AS, most),
            (resource.RLIMIT_STACK, _STACK), (resource.RLIMIT_FSIZE, _FILES),
        ):
            soft, hard = resource.getrlimit(kind)
            if hard == resource.RLIM_INFINITY or bound < hard:
                resource.setrlimit(kind, (bound, bound))
        quiet = os.open(os.devnull, os.O_RDWR)
        for number in range(3):
            os.dup2(quiet, number)

    def _tried(self, case: Any) -> Tuple[bytes, Optional[str]]:
        """Whether a case was (r)efused, (m)isused, or (l)oaded, and what is wrong with it."""
        signal.setitimer(signal.ITIMER_PROF, self._seconds)
        how, is_short = b"m", False
        refused, misused = self._refusals
        self._watch.is_on = True
        try:
            self._load(case)  # (and frees it)
            how = b"l"
        except misused:
            pass
        except refused:
            how = b"r"
        except MemoryError:
            is_short = True
        except BaseException:  # (whatever a class raises)
            pass
        finally:
            self._watch.is_on = False
            signal.setitimer(signal.ITIMER_PROF, 0)
        if self._watch.seen:
            return how, f"dangerous: {self._watch.seen[0]}"
        more = _most_memory() - self._began
        if more > MEMORY or is_short:
            return how, f"{more:,} {MUCH}" if more > MEMORY else "no memory is left"
        return how, None


def _most_memory() -> int:
    """The most memory that this process has had, in bytes."""
    return resource.getrusage(resource.RUSAGE_SELF).ru_maxrss << 10

"""The guarded replacement for `pickle.Unpickler`."""

from __future__ import annotations

import io
import pickle
import sys
import threading
import weakref
from typing import TYPE_CHECKING, Any, Dict, Iterable, Optional, Set, Type

from . import _names
from ._answers import Verdict
from ._checking import JUDGING, check_row
from ._reading import FIRST_BLOCK, block_of, can_step_back, too_long
from ._reasons import Reason
from ._refusal import loaded_from, name_of
from ._storklocker import verdict, walked
from ._substitute import Substitute
from ._reader import Reader
from ._telling import Misuses
from ._walking import Walk

if TYPE_CHECKING:
    from ._guard import Guard


PEEKED = 1 << 17
_IS_PYTHON = not hasattr(pickle.Unpickler, "memo")
"""Whether the superclass is written in Python, as under PyPy, where its memo is an attribute."""


class _Feed(io.BytesIO):
    """The file of the superclass: bytes that were accepted. It is shown none after `end`."""

    end = 0

    def peek(self, count: int = 0, /) -> bytes:
        at = self.tell()
        return self.getvalue()[at : min(at + PEEKED, self.end)]


class GuardedUnpickler(pickle.Unpickler):
    """`pickle.Unpickler` with a check before each `load`.

    `persistent_load`, `find_class` and `buffers` work as in `pickle`. The memo is kept from one
    `load` to the next, so the pickles are checked as a row under one Unpickler. It keeps all bytes
    that it has read, and may read ahead of the pickle that it loads, but leaves the file right
    after that pickle. After a failed `load` it can't be used again.
    """

    guard: Guard
    _feed: Optional[_Feed] = None

    def __init__(
        self,
        file: Any,
        *,
        fix_imports: Optional[bool] = None,
        encoding: Optional[str] = None,
        errors: Optional[str] = None,
        buffers: Optional[Iterable[Any]] = None,
    ) -> None:
        steps_back = can_step_back(file)
        if not all([hasattr(file, name) for name in ("read", "readline")]):
            raise TypeError("file must have 'read' and 'readline' attributes")
        encoding, errors = self.guard.decoding(encoding, errors)
        feed = _Feed()
        super().__init__(feed, fix_imports=False, encoding=encoding, errors=errors, buffers=buffers)
        self._feed, self._file = feed, file
        self._steps_back = steps_back
        self._most = self.guard.max_bytes if self.guard.enforce else sys.maxsize
        self._lock = threading.Lock()
        self._is_spent = False
        self._bytes = b""  # all pickles loaded so far, and what was read ahead
        self._taken = 0  # the number of bytes loaded
        self._pickles = 0  # the number of pickles loaded
        self._accepted: Dict[bool, int] = {}  # the pickles accepted with and without old names
        self._kinds: Set[bool] = set()  # whether there are pickles with and without old names
        self._shift: Optional[int] = None  # the offset in the file minus that in these bytes

    def load(self) -> Any:
        """The object of the next pickle in the file."""
        if self._feed is None:
            raise pickle.UnpicklingError(
                f"Unpickler.__init__() was not called by {type(self).__name__}.__init__()"
            )
        if not self._lock.acquire(blocking=False):
            raise RuntimeError("this Unpickler is already loading: wait until its load returns")
        try:
            return self._load(self._feed)
        finally:
            self._lock.release()

    if not TYPE_CHECKING and not _IS_PYTHON:  # (what is said of `pickle` differs in this)

        @property
        def memo(self) -> Dict[int, Any]:
            """A copy of the memo. The memo itself can't be changed: the check is of what it holds.
            """
            own: Any = super()
            copied: Dict[int, Any] = own.memo.copy()
            return copied

    def admit(self) -> bytes:
        """The next pickle in the file, for another reader. The file is left behind it."""
        end = self._admitted_end()
        data = self._bytes[self._taken : end]
        self._taken = end
        self._pickles += 1
        self._put_back()
        return data

    def _admitted_end(self) -> int:
        """The offset of the end of the next pickle, which is accepted."""
        if self._is_spent:
            raise pickle.UnpicklingError("a load of this Unpickler failed: create a new one")
        self._find_place()
        try:
            return self.guard.admitted(self._admitted)
        except BaseException:  # also an interrupt: the next `load` starts from the same byte
            self._put_back()
            raise

    def _load(self, feed: _Feed) -> Any:
        end = self._admitted_end()
        self._is_spent = True
        try:
            loaded = self._loaded(feed, end)
            self._is_spent = False
        finally:
            self._taken = end
            self._pickles += 1
            self._put_back()
        return loaded

    def _loaded(self, feed: _Feed, end: int) -> Any:
        """The object of the accepted pickle that ends there."""
        self._show(feed, end)
        return super().load()

    def _show(self, feed: _Feed, end: int) -> None:
        """Has the feed give the bytes of the accepted pickle that ends there."""
        feed.__init__(self._bytes)  # type: ignore[misc]
        feed.seek(self._taken)
        feed.end = end

    def _admitted(self) -> int:
        """Reads until the next pickle is accepted. Returns the offset of its end."""
        if self._steps_back and len(self._bytes) == self._taken:
            self._read_on()
        elif not self._steps_back:
            self._walk()
        if len(self._bytes) == self._taken:
            raise EOFError("Ran out of input")
        self._kinds.add(self.guard.has_old_names(self._bytes[self._taken : self._taken + 2]))
        verdict = self._judged()
        while verdict.reason is Reason.Truncated and self._read_on():
            verdict = self._judged()
        end, _ = walked(self._bytes, self._taken)
        verdict = too_long(verdict, end - self._taken, self.guard.max_bytes)
        if verdict:
            return end
        self._put_back()
        guard, data = self.guard, self._bytes[self._taken :]
        if self._pickles:  # lets `missing` check the pickle on its own, not as part of the row
            verdict.ask(data, guard.listed_for(data))
        with loaded_from(name_of(self._file)):
            guard.refuse(verdict, data, self._taken)
        while self._read_on():  # not enforced: everything is loaded
            pass
        return walked(self._bytes, self._taken)[0]

    def _judged(self) -> Verdict:
        """Checks the next pickle under each list that applies, up to the first refusal."""
        verdict = Verdict(True)
        for is_old in self._kinds:
            if self._accepted.get(is_old, 0) <= self._pickles:
                verdict = self._asked(self._bytes, is_old)
                self._accepted[is_old] = verdict.pickles
                if verdict.pickles <= self._pickles:
                    return verdict
        return verdict if self._pickles == 0 else Verdict(True)

    def _asked(self, data: bytes, is_old: bool) -> Verdict:
        """Checks the pickles loaded so far and the bytes after them."""
        guard = self.guard
        allow = guard.list_for(is_old)
        if self._pickles == 0:
            return verdict(data, allow, None)
        words: Any = {name: getattr(guard, name) for name in JUDGING}
        return check_row(data, allow, one_unpickler=True, fix_imports=False, **words)

    def _find_place(self) -> None:
        """Drops what was read ahead if the file is no longer at the end of the last pickle."""
        if self._steps_back:
            place = self._file.tell()
            if self._shift is not None and place != self._shift + self._taken:
                self._bytes = self._bytes[: self._taken]
                self._accepted = {}
            self._shift = place - self._taken

    def _put_back(self) -> None:
        """Seeks the file to the end of the last pickle loaded."""
        if self._steps_back and self._shift is not None:
            self._file.seek(self._shift + self._taken)

    def _read_on(self) -> bool:
        """Reads a block, doubling what was read. Returns False at the end of the file."""
        if not self._steps_back or self._shift is None:
            return False
        room = self._most - (len(self._bytes) - self._taken)
        self._file.seek(self._shift + len(self._bytes))
        block = block_of(self._file.read, min(room, max(FIRST_BLOCK, len(self._bytes))))
        self._bytes += block
        return bool(block)

    def _walk(self) -> None:
        """Reads exactly the next pickle from a file that can't seek back."""
        walk = Walk(self._file, self._most, self._is_hopeless)
        self._bytes += walk.taken()

    def _is_hopeless(self, data: bytes) -> bool:
        if not self.guard.enforce:
            return False
        verdict = self._asked(self._bytes + data, self.guard.has_old_names(data))
        return not verdict and verdict.reason is not Reason.Truncated


class _Inner(Reader):
    """Reads what another Unpickler has admitted, and asks it for classes and persistent objects."""

    def __init__(self, outer: SubstitutingUnpickler, **named: Any) -> None:
        super().__init__(outer.guard.allow, **named)
        self._outer = weakref.ref(outer)

    def find_class(self, module: str, name: str, /) -> Any:
        outer: Any = self._outer()
        return outer.find_class(module, name)

    def persistent(self, number: Any) -> Any:
        load = getattr(self._outer(), "persistent_load", None)
        return super().persistent(number) if load is None else load(number)


class SubstitutingUnpickler(GuardedUnpickler):
    """`GuardedUnpickler` for a list with names that have substitutes."""

    def __init__(self, file: Any, *, buffers: Optional[Iterable[Any]] = None, **named: Any) -> None:
        super().__init__(file, buffers=buffers, **named)
        named.pop("fix_imports", None)
        words = ("encoding", "errors")
        encoding, errors = self.guard.decoding(*(named.get(word) for word in words))
        self._reader = _Inner(self, encoding=encoding, errors=errors, buffers=buffers)
        self._reader.take_any(self.guard.takes_any)

    if not TYPE_CHECKING and not _IS_PYTHON:  # (what is said of `pickle` differs in this)

        @property
        def memo(self) -> Dict[int, Any]:
            """A copy of the memo, without the names that have substitutes."""
            memo = self._reader.copied_memo()
            return {key: it for key, it in memo.items() if not isinstance(it, Substitute)}

    def find_class(self, module: str, name: str, /) -> Any:
        return Reader.find_class(self._reader, module, name)

    def _loaded(self, feed: _Feed, end: int) -> Any:
        data, at = self._bytes, self._taken
        with Misuses(self.guard, data[at:end]):
            return self._reader.loaded(data, at, self.guard.has_old_names(data[at : at + 2]))


class OldUnpickler(GuardedUnpickler):
    """`GuardedUnpickler` with `fix_imports`."""

    def find_class(self, module: str, name: str, /) -> Any:
        if _names.are_old(self._bytes[self._taken : self._taken + 2]):
            module, name = _names.renamed((module, name))
        return super().find_class(module, name)


def kind_of(guard: Guard, is_judging: bool) -> Type[GuardedUnpickler]:
    """The Unpickler of a guard."""
    kind = SubstitutingUnpickler if is_judging else GuardedUnpickler
    kinds = (OldUnpickler, kind) if guard.fix_imports else (kind,)
    words = {"guard": guard, "__module__": "storklocker._guard"}
    return type("Unpickler", kinds, words)

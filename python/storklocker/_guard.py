"""The guard, a replacement for the module `pickle`."""

import functools
import pickle

from ._answers import Refused, Verdict
from ._limits import Limits
from ._lists import AllowList
from ._plain import LOADS
from ._plain import loads as plain_loads
from ._rules import SETTINGS, Rules
from ._storklocker import begin_loads

TYPE_CHECKING = False
if TYPE_CHECKING:
    import os
    from typing import (
        Any, Callable, ClassVar, ContextManager, Iterable, Optional, Tuple, Type, Union
    )

    from ._refusal import Refusal
    from ._unpickler import GuardedUnpickler
    from ._uses import Told

MAX_BYTES = 1 << 30
"""The default of a guard's `max_bytes`."""
ASYNC_FROM = 1 << 16
"""The least size in bytes for which `loads_async` uses a thread."""


def _view_of(data: "Any") -> memoryview:
    try:
        return memoryview(data)
    except TypeError:
        raise TypeError(f"data must be bytes or another buffer, not {type(data)!r}") from None


class Guard(Rules):
    """A replacement for the module `pickle` that loads only pickles which a proved checker accepts.

        >>> import io
        >>> guard = storklocker.Guard(storklocker.AllowList([]))
        >>> guard.loads(guard.dumps({"size": 38}))     # raises storklocker.Refused
        {'size': 38}
        >>> guard.load(io.BytesIO(b"N."))              # the next pickle in a file

    It has the names of `pickle`: `load`, `loads`, `dump`, `dumps`, `Pickler`, `Unpickler`, the
    errors and the protocols, so many caches take one as `serializer`. A guard is immutable. Threads
    may share it, and it can be copied, pickled and sent to workers (if `on_refusal` can be).

    allow: the AllowList. A name that permits everything raises ValueError, unless it has a
        substitute or the list confirms it.
    limits: Limits in addition to those of the list. By default they limit the cost of keys;
        `Limits(levels=None, weight=None, work=None)` doesn't.
    old_strings: how Python 2 strings are decoded, as for `check`. With "ascii" and "bytes" pickles
        are also loaded that way, and a different `encoding` or `errors` raises ValueError.
    fix_imports: whether pickles of protocols 0 to 2 use the module names of Python 2, as `pickle`
        reads and writes them. A pair is then permitted exactly if the list has the pair that
        CPython maps it to. This overrides the `fix_imports` of a call.
    on_refusal: called with a `Refusal` before Refused is raised. An exception that it raises
        replaces Refused.
    enforce: False reports a refusal to `on_refusal` and LOADS THE PICKLE ANYWAY. Use it to find the
        names that a list lacks.
    max_bytes: the most bytes that a `load` reads of one pickle; a longer one is refused as
        TooLarge. The default is 1 GiB.
    build: the objects on which BUILD may set attributes. "made", the default, excludes imported
        objects, so that a pickle changes no listed class or function; "any" also allows that,
        except under a list with substitutes. The list's own `build` overrides this.
    """

    PickleError = pickle.PickleError
    PicklingError = pickle.PicklingError
    UnpicklingError = pickle.UnpicklingError
    Pickler = pickle.Pickler
    PickleBuffer = pickle.PickleBuffer
    HIGHEST_PROTOCOL = pickle.HIGHEST_PROTOCOL
    DEFAULT_PROTOCOL = pickle.DEFAULT_PROTOCOL
    format_version = pickle.format_version  # type: ignore[attr-defined]
    compatible_formats = pickle.compatible_formats  # type: ignore[attr-defined]
    dump = staticmethod(pickle.dump)
    dumps = staticmethod(pickle.dumps)
    __name__ = "storklocker.Guard"
    of_file: "ClassVar[Any]"
    """Makes the guard of a list file. `storklocker/__init__.py` sets it: one that looks at its file
    again is a subclass.
    """
    __slots__ = (
        "_unpickler",
        "_is_begun",
        # (PyPy gives the base class one)
        *(() if hasattr(Rules, "__weakref__") else ("__weakref__",)),
    )

    def __init__(
        self,
        allow: AllowList,
        *,
        limits: "Optional[Limits]" = None,
        old_strings: str = "unknown",
        fix_imports: bool = True,
        on_refusal: "Optional[Callable[[Refusal], Any]]" = None,
        enforce: bool = True,
        max_bytes: int = MAX_BYTES,
        build: str = "made",
    ) -> None:
        values = (limits, old_strings, fix_imports, on_refusal, enforce, max_bytes, build)
        super().__init__(allow, dict(zip(SETTINGS, values)))
        if len(allow):
            from ._unjudged import look_at  # an empty list says nothing of names

            look_at(allow)
        self._unpickler: Optional[Type[GuardedUnpickler]] = None
        self._is_begun = False
        new = old = None
        if old_strings != "bytes":
            new, old = self.list_for(False), self.list_for(True)
        begin_loads(self, new, old, LOADS, len(allow) > 0)

    @classmethod
    def from_file(
        cls,
        file: "Union[str, os.PathLike[str]]",
        *,
        reload: "Optional[float]" = None,
        **settings: "Any",
    ) -> "Guard":
        """A guard for a list file, with these settings. Raises what `AllowList.from_file` raises.

        reload: the least seconds between two looks at the file, which loads take. If its time, size
            or inode has changed, the new list applies from that load on, even if it has fewer
            names. A broken file changes nothing, and is logged once.
        """
        made: Guard = cls.of_file(cls, file, reload, settings)
        return made

    def learning(self, file: "Union[str, os.PathLike[str]]", *, enforce: bool = False) -> "Guard":
        """The same guard, but it writes the names that its list lacks into a file, one JSON object
        a line, for `storklocker learn --from-log`. Many processes may share the file.

        Unless `enforce` is true, the guard LOADS WHAT IT REFUSES: use it where no stranger writes.
        """
        from ._learning import Learner  # few guards learn

        own = getattr(self, "_hook", self._on_refusal)
        hook = Learner(file, own, self._fix_imports)
        return self.like(on_refusal=hook, enforce=enforce)

    def __repr__(self) -> str:
        return f"Guard({self._allow!r})"

    def __reduce__(self) -> "Tuple[Any, ...]":
        return (_guard_of, (type(self), self._allow, *self.settings.values()))

    def _loads(
        self,
        data: "Any",
        /,
        *,
        fix_imports: "Optional[bool]" = None,
        encoding: "Optional[str]" = None,
        errors: "Optional[str]" = None,
        buffers: "Optional[Iterable[Any]]" = None,
    ) -> "Any":
        """`loads` of what isn't bytes, or otherwise not plain."""
        if type(data) is not bytes:
            data = self._copied(data)
        no = self.listed_for(data).refusal(data)
        if no is not None:
            if self._enforce:
                raise self.told(no, data)  # a variable of it would make a cycle with this frame
            self.told(no, data)
        return self._loaded(data, self.decoding(encoding, errors), buffers, no is None)

    def _loads_refused(self, data: bytes, no: Verdict) -> "Any":
        """`loads` of a pickle that is refused."""
        self.refuse(no, data)
        return self._loads_accepted(data, False)

    def _loads_accepted(self, data: bytes, is_accepted: bool = True, *told: "Told") -> "Any":
        """`loads` of a pickle that is accepted, or loaded all the same, given what its uses are."""
        return self._loaded(data, self.decoding(None, None), None, is_accepted, *told)

    def _loads_stopped(self, data: bytes, error: BaseException) -> None:
        """Raises what has stopped a load, and tells of it if the pickle is misused."""
        from ._telling import Misuses  # few loads are stopped

        with Misuses(self, data):
            raise error

    def load(
        self,
        file: "Any",
        *,
        fix_imports: "Optional[bool]" = None,
        encoding: "Optional[str]" = None,
        errors: "Optional[str]" = None,
        buffers: "Optional[Iterable[Any]]" = None,
    ) -> "Any":
        """Loads the next pickle in a file, and leaves the file right after it.

        Raises EOFError at the end of the file, Refused (and seeks back, if the file can), and
        otherwise what `pickle.load` raises.
        """
        encoding, errors = self.decoding(encoding, errors)
        data = self._next_in(file) if self._enforce else None
        if data is None:
            return self.Unpickler(file, encoding=encoding, errors=errors, buffers=buffers).load()
        return self._loaded(data, (encoding, errors), buffers)

    async def loads_async(self, data: "Any", /, **named: "Any") -> "Any":
        """`loads` without blocking the event loop: from 65,536 bytes on it runs in a thread."""
        if _view_of(data).nbytes < ASYNC_FROM:
            return self.loads(data, **named)
        import asyncio
        import contextvars

        call = functools.partial(contextvars.copy_context().run, self.loads, data, **named)
        return await asyncio.get_running_loop().run_in_executor(None, call)

    def check(self, data: bytes) -> Verdict:
        """Checks the pickle at the front of `data`, a bytes object, as `loads` does."""
        return self.judge(data)

    @property
    def Unpickler(self) -> "Type[GuardedUnpickler]":
        """The guarded replacement for `pickle.Unpickler`. It can be subclassed."""
        if self._unpickler is None:
            from ._unpickler import kind_of  # few guards read with one

            self._unpickler = kind_of(self, len(self._allow) > 0 or self._enforce)
        return self._unpickler

    @staticmethod
    def context(value: "Any") -> "ContextManager[None]":
        """`storklocker.context`."""
        from ._refusal import context  # few services name what they load

        return context(value)

    def told(self, verdict: Verdict, data: bytes, length: int = 0, start: int = 0) -> Refused:
        """Reports a refusal to `on_refusal`, and returns its exception."""
        from ._telling import told  # most guards refuse little

        return told(self, verdict, data, length, start)

    def refuse(self, verdict: Verdict, data: bytes, start: int = 0) -> None:
        """Reports a refusal, and raises it unless it isn't enforced."""
        if self._enforce:
            raise self.told(verdict, data, start=start)
        self.told(verdict, data)

    def refusal_of(self, data: bytes) -> "Optional[Refused]":
        """The exception for `data`, reported to `on_refusal`, or None if it is one accepted pickle.
        """
        verdict = self.listed_for(data).refusal(data)
        return None if verdict is None else self.told(verdict, data)

    def _copied(self, data: "Any") -> bytes:
        """A copy of a buffer as bytes."""
        from ._reading import copied  # most loads are of bytes

        return copied(self, _view_of(data))

    def like(self, **changed: "Any") -> "Guard":
        """The same guard with other settings."""
        words: Any = {"allow": self._allow, **self.settings, **changed}
        return type(self)(**words)

    def now(self) -> "Guard":
        """The guard that has the list as it is now, for all that one load asks."""
        return self

    def admitted(self, admit: "Callable[[], int]") -> int:
        """Has an Unpickler check its next pickle."""
        return admit()

    def loads_front(
        self,
        data: "Any",
        encoding: "Optional[str]",
        errors: "Optional[str]",
        buffers: "Optional[Iterable[Any]]",
    ) -> "Any":
        """The object of the pickle at the front of `data`. What follows it is ignored, as `pickle`
        does.
        """
        if type(data) is not bytes:
            data = bytes(_view_of(data))
        no = self.listed_for(data).refusal(data)
        if no is not None and not no.accepted:
            self.refuse(no, data, 0)
        decoding = self.decoding(encoding, errors)
        return self._loaded(data, decoding, buffers, no is None or no.accepted)

    def load_accepted(self, data: bytes) -> "Any":
        """The object of a pickle that this guard has accepted. IT CHECKS NOTHING: for readers that
        check more than one pickle before they load any.
        """
        return self._loads_accepted(data)

    def for_children(self) -> "Guard":
        """The guard for another process: without its hook if that can't be pickled."""
        try:
            pickle.dumps(self._on_refusal)
        except Exception:
            return self.like(on_refusal=None)
        return self

    def _next_in(self, file: "Any") -> "Optional[bytes]":
        """Bytes that begin with the next, accepted pickle; None if an Unpickler has to read it."""
        from ._reading import next_in  # most loads are of bytes

        return next_in(self, file)

    def _loaded(
        self,
        data: bytes,
        decoding: "Tuple[str, str]",
        buffers: "Optional[Iterable[Any]]" = None,
        is_accepted: bool = True,
        *told: "Told",
    ) -> "Any":
        """The object of a pickle, with its imports under the names that were checked. One that is
        loaded though it is refused is judged only where names have substitutes.
        """
        words: Any = {"encoding": decoding[0], "errors": decoding[1], "buffers": buffers}
        is_old = self.has_old_names(data)
        if not (len(self._allow) if is_accepted else self._has_substitutes):
            return plain_loads(data, is_old, **words)
        from ._substitutes import Judged, begin, loads  # an empty list needs none

        if not self._is_begun:
            self._is_begun = True
            begin(self)
        how = Judged(is_old, self.takes_any)
        try:
            return loads(data, self._allow, how, *told, **words)
        except pickle.UnpicklingError:
            from ._telling import Misuses  # few loads are stopped

            with Misuses(self, data):
                raise


def _guard_of(kind: "Type[Guard]", allow: AllowList, *settings: "Any") -> Guard:
    return kind(allow, **dict(zip(SETTINGS, settings)))

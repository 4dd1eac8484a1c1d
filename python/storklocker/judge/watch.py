"""What counts as harm while a name is tried. What would harm is noted, and refused."""

from __future__ import annotations

import os
import sys
import types
from typing import Any, List

CODE = "open('pwned', 'w')"
MARKS = ("pwned", "evil")
"""What only code and modules of our arguments have."""
HARMS = {
    "command": "os.system os.exec os.posix_spawn os.spawn os.fork subprocess. pty.",
    "code": "code.__new__ function.__new__ builtins.breakpoint",
    "pickle": "pickle.find_class",
    "write": "os.remove os.rename os.mkdir os.rmdir os.link os.symlink os.truncate os.chmod"
    " os.chown os.lchmod os.utime os.setxattr shutil. tempfile. sqlite3.",
    "memory": "ctypes. mmap.",
    "network": "socket. webbrowser. urllib. ftplib. smtplib. http.client. imaplib. poplib. nntplib."
    " telnetlib.",
    "process": "os.ch os.putenv os.unsetenv os.kill os.lockf sys.set sys.addaudithook syslog."
    " resource. signal. fcntl. winreg. msvcrt.",
}
"""The audit events of what harms whatever its arguments are, by the catalogue's word for it."""
_OPENING = ("open", "os.listdir", "os.scandir", "os.walk", "glob.glob")
_OURS = {"import": "import", "exec": "code", "compile": "code",
         "marshal.loads": "code", "marshal.load": "code"}
_LIBRARY = ("/usr", sys.prefix, sys.base_prefix, *(it for it in sys.path if it))
"""Where a library lies, which reads its own files."""


class Refused(Exception):
    """What would have done harm isn't done."""


class Watch:
    """An audit hook that notes the first thing that harms, and refuses each, while it is on."""

    def __init__(self) -> None:
        self.is_on = False
        self.seen: List[str] = []

    def __call__(self, event: str, given: Any) -> None:
        if not self.is_on:
            return
        word = self._word_of(event, given)
        if word:
            self.note(f"{word}: {event} {given!r:.80}")
            raise Refused(event)

    def note(self, what: str) -> None:
        """Keeps what was done: a word of the catalogue, and what it was."""
        if not self.seen:
            self.seen.append(what)

    def _word_of(self, event: str, given: Any) -> str:
        if event in _OPENING:
            return _opened(given)
        if event in _OURS:
            return _OURS[event] if _is_ours(given[0]) else ""
        return next((word for word, fronts in _FRONTS.items() if event.startswith(fronts)), "")


_FRONTS = {word: tuple(fronts.split()) for word, fronts in HARMS.items()}
WATCH = Watch()


def _opened(given: Any) -> str:
    path, mode = given[0], given[1] if len(given) > 1 else ""
    is_written = isinstance(mode, str) and any(it in mode for it in "wax+")
    if not isinstance(path, (str, bytes)):
        return "" if isinstance(path, int) or path is None else "read"
    if is_written:
        return "write"
    if str(path).startswith("<"):
        return ""  # (the source of what was compiled, for a traceback)
    if path in sys.path or path in sys.path_importer_cache:
        return ""  # (an import looks there)
    is_of_library = os.path.abspath(os.fsdecode(path)).startswith(_LIBRARY)
    return "" if is_of_library and not _is_ours(path) else "read"


def _is_ours(code: Any) -> bool:
    if isinstance(code, types.CodeType):
        code = f"{code.co_names} {code.co_consts}"
    return any(mark in str(code) for mark in MARKS)

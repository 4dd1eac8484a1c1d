"""An audit hook that leaves a mark for whatever the list doesn't permit: names that are imported by
pickles, modules, code, commands, and files that are opened for writing.
"""

import contextlib
import multiprocessing
import os
import sys
import threading
import tokenize  # noqa: F401  # the first traceback imports it
import traceback
from pathlib import Path
from urllib.parse import unquote

import storklocker._reasons  # noqa: F401  # the first refusal imports it

multiprocessing.get_context()  # (its first use writes a file)
MARKS = Path(os.environ["STORKLOCKER_MARKS"])
LATER = {"_strptime", "encodings", "stringprep", "unicodedata", "locale", "gc",
         "ast", "_ast", "resource"}
"""Modules that the standard library imports on first use."""
RUN = {
    "os.system", "os.exec", "os.posix_spawn", "os.spawn", "os.startfile", "pty.spawn",
    "subprocess.Popen", "ctypes.dlopen", "os.link", "os.symlink",
}
WRITTEN = {"os.mkdir", "os.rename", "os.truncate"}
COMPILERS = (
    "collections/__init__.py", "dataclasses.py", "attr/_make.py", "langhelpers.py", "six.py",
    "multiprocessing/managers.py",
)
"""Files that compile parts of classes from text."""
WRITING = os.O_WRONLY | os.O_RDWR | os.O_CREAT | os.O_APPEND | os.O_TRUNC


class Watch(threading.local):
    """What is watched: the whole process, or a thread within `during`."""

    everywhere = False
    busy = False
    within = False
    pairs = frozenset()
    folders = ()
    modules = frozenset()
    readers = ()


_watch = Watch()


def watch(pairs, folders=(), modules=(), readers=()):
    """Watches the process from now on. Permits the pairs, files in the folders, and modules below
    those that are imported already; and all pairs to readers by the ends of their files' names,
    which read what a service's own processes send to each other.
    """
    _set(pairs, folders, modules)
    Watch.readers = tuple(readers)
    Watch.everywhere = True
    _installed()


@contextlib.contextmanager
def during(pairs, folders=(), modules=()):
    """Watches this thread for a while."""
    _set(pairs, folders, modules)
    _installed()
    _watch.within = True
    try:
        yield
    finally:
        _watch.within = False


def _set(pairs, folders, modules):
    Watch.pairs = frozenset(pairs)
    Watch.folders = ("/dev/", "/proc/", *(os.path.realpath(it) for it in folders))
    tops = {name.partition(".")[0] for name in sys.modules}
    Watch.modules = frozenset({*tops, *LATER, *modules, *(pair[0] for pair in pairs)})


def _installed(done=[]):
    if not done:
        done.append(True)
        sys.addaudithook(_hook)


def _hook(event, arguments):
    if not (_watch.within or Watch.everywhere) or _watch.busy:
        return
    _watch.busy = True
    try:
        if _is_foul(event, arguments):
            _mark(event, arguments)
    finally:
        _watch.busy = False


def _is_foul(event, arguments):
    if event == "pickle.find_class":
        return tuple(arguments) not in Watch.pairs and not _caller().endswith(Watch.readers)
    if event == "import":
        return arguments[0].partition(".")[0] not in Watch.modules
    if event == "code.__new__":
        return not _caller().startswith("<frozen importlib")  # (3.9 and before tell of imports)
    if event == "exec":
        return not os.path.exists(arguments[0].co_filename) and not _caller().endswith(COMPILERS)
    if event == "open":
        mode, flags = str(arguments[1] or ""), arguments[2] or 0
        return bool(set(mode) & set("wax+") or flags & WRITING) and _is_outside(arguments[0])
    if event == "sqlite3.connect":
        return _is_outside(_path_of(arguments[0]))
    return event in RUN or (event in WRITTEN and _is_outside(arguments[0]))


def _path_of(database):
    """The path of a database, also of a URI, by which `dbm` opens it since Python 3.13."""
    is_uri = isinstance(database, str) and database.startswith("file:")
    return unquote(database[len("file:"):].partition("?")[0]) if is_uri else database


def _is_outside(path):
    if not isinstance(path, (str, bytes, os.PathLike)):
        return False  # a file descriptor
    return not os.path.realpath(os.fsdecode(path)).startswith(Watch.folders)


def _caller():
    """The file of the function that loads a pickle, or executes code."""
    return sys._getframe(3).f_code.co_filename


def _mark(event, arguments):
    name = f"{event}-{os.getpid()}-{len(os.listdir(MARKS))}"
    words = "".join(traceback.format_stack(limit=12)[:-2])
    with open(MARKS / name, "w", encoding="utf-8") as file:
        file.write(f"{event} {arguments!r:.400}\n{words}")

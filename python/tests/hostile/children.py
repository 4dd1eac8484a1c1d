"""Loads pickles in forked processes, under guards: none runs, opens or imports anything."""

import importlib
import pkgutil
import re
import sys
import warnings

import storklocker
from storklocker import Misused, Refused, lists
from storklocker.judge import children
from storklocker.judge.children import SECONDS

DANGERS = (
    *("exec", "compile", "open", "import", "subprocess.", "socket.", "os.", "shutil.", "ctypes."),
    *("marshal.", "pty.", "tempfile.", "code.__new__", "function.__new__", "builtins.breakpoint"),
    *("sqlite3.", "urllib.", "webbrowser.", "mmap.", "sys.set", "syslog.", "signal."),
)
"""Audit events of what no load of a ready-made list does."""
_ZONE = re.compile(r"(/usr/share/zoneinfo|/.*/pytz/zoneinfo)(/[\w+-]+){1,4}", re.ASCII)
"""A file that is opened: that of a time zone, by a name that its library knows."""
_OWN = ("storklocker", "encodings")
"""Packages whose modules are imported when they are needed, as are those of listed packages."""


class Watch:
    """An audit hook that notes what is dangerous, while it is on."""

    def __init__(self):
        self.is_on, self.seen, self.packages = False, [], frozenset()

    def __call__(self, event, given):
        if not self.is_on or not event.startswith(DANGERS):
            return
        if event == "import" and str(given[0]).partition(".")[0] in self.packages:
            return
        if event == "os.listdir" and given[0] in sys.path_importer_cache:
            return  # (a folder of modules has changed)
        if event == "open" and given[1] in ("r", "rb") and _ZONE.fullmatch(str(given[0])):
            return
        self.seen.append(f"{event} {given!r:.60}")


WATCH = Watch()


def begin():
    """Begins to watch this process, and what it forks."""
    warnings.simplefilter("ignore")
    sys.setrecursionlimit(1000)
    for own in pkgutil.iter_modules(storklocker.__path__):
        if own.name.startswith("_") and own.name != "__main__":
            importlib.import_module(f"{storklocker.__name__}.{own.name}")
    modules = {module for name in lists.__all__ for module, _ in getattr(lists, name)}
    WATCH.packages = frozenset([*_OWN, *(module.partition(".")[0] for module in modules)])
    sys.addaudithook(WATCH)


def is_here(pair):
    """Whether this Python has a name, which is then imported."""
    try:
        module = importlib.import_module(pair[0])
    except Exception:  # (whatever a library raises that lacks another one)
        return False
    return hasattr(module, pair[1])


class Children(children.Children):
    """Tries pickles, each loaded by a function that refuses some."""

    def __init__(self, load, pairs, seconds=SECONDS, every=1):
        super().__init__(load, pairs, WATCH, (Refused, Misused), seconds, every)

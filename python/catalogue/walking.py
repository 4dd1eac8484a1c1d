#!/usr/bin/env python3
"""Walks over the libraries of this Python, and writes what leads to a dangerous name into the
folder `walked`, a file a library.

    python/catalogue/walking.py [LIBRARY ..]

A library that isn't here keeps its file. `make` takes them into the table of the scan.
"""

import importlib.util
import platform
import sys
import sysconfig
import textwrap
from collections import defaultdict
from importlib import metadata
from pathlib import Path

HERE = Path(__file__).resolve().parent
sys.path.append(str(HERE.parent))

import rows  # noqa: E402
from shipping import LIBRARIES, front  # noqa: E402
from storklocker.scanning.known import Known  # noqa: E402
from walk import Module, Walk  # noqa: E402

DISTRIBUTIONS = {"sklearn": "scikit-learn"}
"""The distributions of libraries that have another name."""
CATALOGUED = {"django": (3, 2), "numpy": (1, 24), "pandas": (1, 5), "scipy": (1, 10),
              "sklearn": (1, 2)}
"""The versions that the catalogue was made with: others have other names and arguments."""
STEPS = 3
"""The most calls from a callable to the dangerous name for which it is suspected."""

_LEFT_OUT = {"test", "tests", "idlelib", "lib2to3", "turtledemo", "site-packages", "dist-packages",
             "distutils", "ensurepip", "tkinter", "conftest", "testing", "__pycache__"}
_EVERYWHERE = "It reaches any object"
"""Names that nearly all code uses, such as getattr: what calls them isn't suspected for that."""


def version_of(library):
    """The version of a library of this Python, or an empty string."""
    if library == "python":
        return platform.python_version()
    try:
        return metadata.version(DISTRIBUTIONS.get(library, library))
    except metadata.PackageNotFoundError:
        return ""


def is_catalogued(library):
    """Whether a library has the version that the catalogue was made with."""
    made = CATALOGUED.get(library)
    return made is None or tuple(map(int, version_of(library).split(".")[:2])) == made


def sources_of(library):
    """The modules of a library: name, source, whether it is a package."""
    if library == "python":
        root = front = Path(sysconfig.get_paths()["stdlib"])
    else:
        root = Path(importlib.util.find_spec(library).origin).parent
        front = root.parent
    for path in sorted(root.rglob("*.py")):
        parts = list(path.relative_to(front).with_suffix("").parts)
        if _LEFT_OUT.intersection(parts) or parts[-1] == "__main__":
            continue
        is_package = parts[-1] == "__init__"
        name = ".".join(parts[:-1] if is_package else parts)
        yield name, path.read_text(encoding="utf-8"), is_package


def walked(library, names):
    """What a walk finds in a library, beside what has been judged: other names of dangerous ones,
    and callables that lead to a dangerous name, by that name.
    """
    walk = Walk([Module(*it) for it in sources_of(library)])
    mentioned = {it for named in walk.callables.values() for it in named}
    sinks = {it for it in mentioned if _is_dangerous(names, it, _EVERYWHERE)}
    leading = defaultdict(list)
    for name, sink in walk.leading_to(sinks, lambda it: names.judged(it) is not None, STEPS):
        leading[sink].append(name)
    aliases = [
        (alias, meant)
        for alias, meant in sorted(walk.aliases.items())
        if _is_dangerous(names, meant) and not _is_dangerous(names, alias)
    ]
    return aliases, leading


def _is_dangerous(names, name, but=None):
    row = names.judged(name)
    return row is not None and row.severity == "danger" and not row.why.startswith(but or "-")


def section(library, names):
    """The lines of a library."""
    yield f"# library {library} {version_of(library)}"
    aliases, leading = walked(library, names)
    yield "[alias]"
    yield from (" ".join(it) for it in aliases)
    for sink in sorted(leading):
        yield f"[leads] {sink}"
        yield from textwrap.wrap(" ".join(sorted(leading[sink])), 100, break_on_hyphens=False)


def judged():
    """The names that have been judged, of which the walk begins."""
    return Known(front(rows.rows().values()))


def main(words):
    names = judged()
    for library in words or LIBRARIES:
        if version_of(library):
            text = "".join(f"{line}\n" for line in section(library, names))
            (HERE / "walked" / f"{library}.txt").write_text(text, encoding="utf-8", newline="\n")
    return 0


if __name__ == "__main__":
    sys.exit(main(sys.argv[1:]))

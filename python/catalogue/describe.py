#!/usr/bin/env python3
"""Says of each name of the ready-made lists, and of substitutes, what it is, what a state does to
its objects, and which versions of its library have it, as each of the given Pythons finds it, and
puts that into the catalogue. What stands there stays, but a state that is found to do more.

    PYTHONPATH=. python3 catalogue/describe.py [--python PATH]...
"""

import argparse
import enum
import importlib
import json
import platform
import subprocess
import sys
import types
import warnings

import rows
from storklocker._objects import found


def kind_of(it):
    """What an object is, in the catalogue's words."""
    if isinstance(it, types.ModuleType):
        return "module"
    if isinstance(it, (enum.Enum, enum.EnumMeta)):
        return "enum"
    if isinstance(it, type):
        return "exception" if issubclass(it, BaseException) else "class"
    return "function" if callable(it) else "value"


STATES = ("refused", "attributes", "called")
"""What a state does, the least first."""


def state_of(it):
    """What BUILD does to objects of a class, in the catalogue's words; None for what is no class.
    """
    if not isinstance(it, type):
        return None
    if issubclass(it, enum.Enum):
        return "refused"  # (a guard refuses it: all who ask share a member)
    setters = [base for base in it.__mro__ if "__setstate__" in vars(base)]
    if setters and setters[0] is not BaseException:
        return "called"
    has_slots = any(isinstance(member, types.MemberDescriptorType)
                    for base in it.__mro__ for member in vars(base).values())
    return "attributes" if it.__dictoffset__ or has_slots else "refused"


def library_of(name):
    """The library of a name, and its version here; None if it isn't here."""
    libraries = {path.stem: path for path in rows.files()}
    library = rows.library_of(name, libraries)
    if library == rows.PYTHON:
        return library, ".".join(platform.python_version_tuple()[:2])
    try:
        version = importlib.import_module(library).__version__
    except (ImportError, AttributeError):
        return library, None
    return library, ".".join(str(version).split("+")[0].split(".")[:2])


def described():
    """What each listed name is here, or None, and what a state does to its objects, with the
    version of its library; of libraries that are here alone.
    """
    warnings.simplefilter("ignore")
    for row in rows.rows().values():
        is_asked = (row.lists or row.substitute) and not row.name.endswith(".*")
        version = library_of(row.name)[1] if is_asked else None
        if version is None:
            continue
        try:
            it = found(*row.pair)
        except Exception:  # (whatever a library raises that wants settings)
            continue
        yield row.name, version, None if it is None else kind_of(it), state_of(it)


def changed(told):
    """The rows that say more, by what Pythons have told."""
    seen, states, made = {}, {}, {}
    for name, version, kind, state in told:
        seen.setdefault(name, {}).setdefault(version, set()).add(kind)
        states.setdefault(name, set()).add(state)
    for name, row in rows.rows().items():
        versions = seen.get(name, {})
        kinds = {kind for its in versions.values() for kind in its} - {None}
        having = [version for version, its in versions.items() if its != {None}]
        new = row
        if len(kinds) == 1:
            new = new._replace(kind=row.kind or min(kinds))
        if 0 < len(having) < len(versions):
            new = new._replace(versions=", ".join(sorted(having, key=_numbers)))
        does = [*(states.get(name, set()) - {None}), *filter(None, [row.state])]
        if does:
            new = new._replace(state=max(does, key=STATES.index))
        if new != row:
            made[name] = new
    return made


def _numbers(version):
    return [int(part) if part.isdigit() else 0 for part in version.split(".")]


def main():
    parser = argparse.ArgumentParser(description=__doc__.partition("\n\n")[0])
    parser.add_argument("--names", action="store_true", help="only print what this Python finds")
    parser.add_argument("--python", action="append", default=[], metavar="PATH", help="ask it too")
    options = parser.parse_args()
    if options.names:
        print(json.dumps(list(described())))
        return
    told = []
    for python in options.python or [sys.executable]:
        ran = subprocess.run([python, __file__, "--names"], stdout=subprocess.PIPE, check=True)
        told += json.loads(ran.stdout.splitlines()[-1])
    made = changed(told)
    rows.write(made)
    print(len(made), "rows written")


if __name__ == "__main__":
    main()

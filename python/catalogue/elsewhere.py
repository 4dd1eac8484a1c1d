#!/usr/bin/env python3
"""Counts the names of the catalogue that other files of the package have in their code, as a dotted
text or as a pair of a module and a name, and says why each file has some.

    python/catalogue/elsewhere.py
"""

import ast
import sys
from pathlib import Path

import rows

PACKAGE = rows.HERE.parent / "storklocker"
WHY = {
    "a substitute, or what judges objects: its code stands beside the names that it is for":
        "_arrays _builtins _calls _compiled _library _of_django _of_estimators _of_jobs _of_numpy"
        " _of_packages _of_pandas _of_torch _sections _states _uses",
    "whose calls explain follows, with what they are given":
        "explaining/answers explaining/decoding explaining/payloads explaining/texts"
        " explaining/values",
    "getattr is asked for members of enums": "_learning scanning/command scanning/members",
    "what hostile pickles are made of, and what they do": "judge/objects judge/shapes judge/watch",
    "what a reader of such files does with these names":
        "scanning/calls scanning/checkpoint_places scanning/joblib_cutting scanning/joblib_types",
    "what stands for these names where a load is foreseen":
        "scanning/foreseeing scanning/stand_ins scanning/unseen",
}
"""Why files have such names."""


def reasons():
    """The reason of each file that may have some."""
    return {f"{it}.py": why for why, files in WHY.items() for it in files.split()}


def names_in(path, known):
    """The names in the code of a file."""
    for node in ast.walk(ast.parse(path.read_text(encoding="utf-8"))):
        if isinstance(node, ast.Constant) and node.value in known and "." in str(node.value):
            yield node.value
        if isinstance(node, ast.Tuple) and len(node.elts) == 2:
            parts = [getattr(it, "value", None) for it in node.elts]
            if all(type(it) is str for it in parts) and ".".join(parts) in known:
                yield ".".join(parts)


def counted():
    """How many such names each file has that has any."""
    known, found = rows.rows(), {}
    for path in sorted(PACKAGE.rglob("*.py")):
        count = len(list(names_in(path, known)))
        if count and path.name != "_facts.py":
            found[path.relative_to(PACKAGE).as_posix()] = count
    return found


def main():
    known, found = reasons(), counted()
    for path, count in found.items():
        print(f"{count}  {path}: {known.get(path, 'no reason is known')}")
    return int(found.keys() != known.keys())


if __name__ == "__main__":
    sys.exit(main())

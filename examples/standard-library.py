#!/usr/bin/env python3
"""Checks pickles of the standard library's own objects.

Each object is pickled in every protocol. CPython's reader says which names it looks up. Under a
list of exactly these names `pktool check` must say yes, with the length of the pickle and the
number of its look-ups; with any one of them left out it must name that pair. The last line counts
the checks.
"""
import io
import json
import os
import pickle
import subprocess
import sys
import tempfile
from typing import Any, Dict, Iterable, List, Set, Tuple

import objects
import tool

TOOL = tool.program()


class Names(pickle.Unpickler):
    """Reads a pickle and records the names that it looks up, as spelled."""

    def __init__(self, data: bytes) -> None:
        super().__init__(io.BytesIO(data), buffers=None)
        self.names: List[Tuple[str, str]] = []

    def find_class(self, module: str, name: str) -> Any:
        self.names.append((module, name))
        return super().find_class(module, name)


def quoted(text: str) -> str:
    return (
        '"'
        + "".join(
            c if " " <= c <= "~" and c not in '"\\' else "".join(f"\\x{b:02x}" for b in c.encode())
            for c in text
        )
        + '"'
    )


def list_file(pairs: Iterable[Tuple[str, str]]) -> str:
    modules: Dict[str, Set[str]] = {}
    for module, name in pairs:
        modules.setdefault(module, set()).add(name)
    lines = ["version = 1", "[imports]"]
    lines += [
        f"{json.dumps(module)} = {json.dumps(sorted(names))}"
        for module, names in sorted(modules.items())
    ]
    return "\n".join(lines) + "\n"


def check(folder: str, data: bytes, pairs: Iterable[Tuple[str, str]]) -> Tuple[int, str]:
    with open(os.path.join(folder, "list.toml"), "w", encoding="utf-8") as out:
        out.write(list_file(pairs))
    with open(os.path.join(folder, "pickle"), "wb") as out:
        out.write(data)
    ended = subprocess.run(
        [TOOL, "check", "--allow", "list.toml", "pickle"],
        cwd=folder,
        capture_output=True,
        text=True,
    )
    return ended.returncode, ended.stdout


def main() -> int:
    passed = failed = 0
    with tempfile.TemporaryDirectory() as folder:
        for value, protocol, data in objects.pickles():
            reader = Names(data)
            reader.load()
            looked_up = reader.names
            wanted = [(set(looked_up), 0, f"yes: {len(data)} bytes, {len(looked_up)} imports\n")]
            for pair in sorted(set(looked_up)):
                wanted.append(
                    (
                        set(looked_up) - {pair},
                        1,
                        f"ImportOffList({quoted(pair[0])},{quoted(pair[1])})\n",
                    )
                )
            for pairs, status, ending in wanted:
                got = check(folder, data, pairs)
                if got[0] == status and got[1].endswith(ending):
                    passed += 1
                else:
                    failed += 1
                    print(
                        f"{type(value).__name__} in protocol {protocol}: expected {status} "
                        f"{ending!r}, got {got}",
                        file=sys.stderr,
                    )
    print(f"{passed} passed, {failed} failed")
    return 1 if failed else 0


if __name__ == "__main__":
    sys.exit(main())

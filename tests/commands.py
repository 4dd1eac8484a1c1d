#!/usr/bin/env python3
"""Runs whole commands: what they say and leave is right to the byte.

Each row of command_rows.py runs in a folder of its own, with its files and no others. Its status,
standard output, standard error and afterwards the names and contents of all files there are
compared. What is expected of forms and of JSON is compared with CPython's own reading too. The last
line counts.
"""
import json
import os
import pathlib
import pickle
import re
import subprocess
import sys
import tempfile
from typing import Dict, List, Optional, Tuple

import command_rows
import program
import rows

SECONDS = 20
NO_VARIABLES: Dict[str, str] = {}
# tests/versions compares the version.
VERSION = re.compile(rb"\Apktool \d+\.\d+\.\d+(\.dev\d+)?\n\Z")


def ran(folder: pathlib.Path, row: command_rows.Row) -> command_rows.Row:
    """What a row's command says and leaves, as a row."""
    for name, content in row.files.items():
        (folder / name).write_bytes(content)
    ended = subprocess.run(
        [row.name, *row.words],
        executable=os.fsencode(program.PROGRAM),
        cwd=folder,
        env=NO_VARIABLES,
        stdin=subprocess.DEVNULL,
        stdout=subprocess.PIPE,
        stderr=subprocess.PIPE,
        timeout=SECONDS,
        check=False,
    )
    left = {path.name: path.read_bytes() for path in folder.iterdir()}
    out = VERSION.sub(b"pktool VERSION\n", ended.stdout)
    return command_rows.Row(row.words, ended.returncode, out, ended.stderr, row.files, left)


def brief(content: Optional[bytes]) -> str:
    return repr(content if content is None else content[:200])


def faults_of(row: command_rows.Row) -> List[str]:
    """What a row's command says or leaves that it mustn't."""
    with tempfile.TemporaryDirectory(prefix="commands-") as folder:
        got = ran(pathlib.Path(folder), row)
    faults = [] if got.status == row.status else [f"status {got.status}, not {row.status}"]
    pairs: List[Tuple[str, Optional[bytes], Optional[bytes]]] = [
        ("standard output", got.out, row.out),
        ("standard error", got.err, row.err),
    ]
    wanted = {**row.files, **row.left}
    for name in sorted({*wanted, *got.left}):
        pairs.append((name, got.left.get(name), wanted.get(name)))
    for what, is_, must in pairs:
        if is_ != must:
            faults.append(f"{what} is {brief(is_)}, not {brief(must)}")
    return faults


def differs(row: rows.Row) -> bool:
    """Whether CPython reads something else from what a row says or leaves than from its pickle."""
    if row.result is not None:
        return repr(pickle.loads(row.result)) != repr(pickle.loads(row.pickle))
    if row.command == "json" and row.status == 0:
        # as texts: in JSON a tuple is a list, and True is not 1
        read = json.dumps(pickle.loads(row.pickle), sort_keys=True)
        return json.dumps(json.loads(row.said or ""), sort_keys=True) != read
    return False


def main() -> int:
    program.require(program.PROGRAM)
    faults = [f"{it.command} {it.name}: CPython differs" for it in rows.others() if differs(it)]
    passed = 0
    wanted = command_rows.every()
    for row in wanted:
        found = faults_of(row)
        passed += not found
        line = b" ".join((row.name, *row.words)).decode("utf-8", "backslashreplace")
        pickled = brief(row.files.get(command_rows.FILE))
        faults += [f"{line} ({command_rows.FILE} is {pickled}): {it}" for it in found[:1]]
    for fault in faults:
        print(f"failed: {fault}")
    print(f"{passed} passed, {len(faults)} failed")
    return int(bool(faults))


if __name__ == "__main__":
    sys.exit(main())

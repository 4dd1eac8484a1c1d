"""Damaged containers with a hostile pickle in them: whenever a reader of Python's library gets to
it, the page must refuse something or say that it can't read it.
"""

from __future__ import annotations

import contextlib
import gzip
import io
import json
import pickle
import random
import subprocess
import tarfile
import tempfile
import zipfile
from pathlib import Path
from typing import Dict

from sentences import begun, scripts

ROOT = Path(__file__).resolve().parent.parent.parent
FILES = 1000
SEED = 1
HOSTILE = b"cos\nsystem\n(S'touch pwned'\ntR."
HONEST = pickle.dumps([1, 2, {"a": 3}], 4)


def _zip(dice: random.Random) -> bytes:
    made = io.BytesIO()
    with zipfile.ZipFile(made, "w") as archive:
        archive.writestr("a/version", b"3\n")
        archive.writestr("a/data.pkl", HOSTILE, dice.choice((0, 8)))
        archive.writestr("a/data/0", bytes(40))
        archive.writestr("a/other.pkl", HONEST, dice.choice((0, 8)))
    front = dice.choice((b"", b"", b"", b"N.", bytes(7), HONEST))
    return front + made.getvalue() + dice.choice((b"", b"", b"", b"N.", bytes(7)))


def _tar(dice: random.Random) -> bytes:
    made = io.BytesIO()
    form = dice.choice((tarfile.GNU_FORMAT, tarfile.PAX_FORMAT))
    with tarfile.open(fileobj=made, mode="w", format=form) as archive:
        for name, data in (("x" * dice.choice((3, 150)), HONEST), ("a.pkl", HOSTILE)):
            info = tarfile.TarInfo(name)
            info.size = len(data)
            archive.addfile(info, io.BytesIO(data))
    return made.getvalue()


def _damaged(dice: random.Random) -> bytes:
    data = bytearray(dice.choice((_zip, _tar))(dice))
    for _ in range(dice.choice((0, 1, 1, 2, 4))):
        at = dice.randrange(len(data))
        change = dice.randrange(3)
        if change == 0:
            data[at] = dice.randrange(256)
        elif change == 1:
            del data[at : at + dice.choice((1, 4, 30))]
        else:
            data[at:at] = bytes(dice.randrange(256) for _ in range(dice.choice((1, 4))))
    return bytes(data)


def _is_read(data: bytes) -> bool:
    """Whether a reader gets to the import of the hostile pickle."""
    found = []
    # the readers raise whatever damaged bytes make them raise
    with contextlib.suppress(Exception), zipfile.ZipFile(io.BytesIO(data)) as archive:
        for name in archive.infolist():
            with contextlib.suppress(Exception):
                found.append(archive.read(name))
    with contextlib.suppress(Exception), tarfile.open(fileobj=io.BytesIO(data)) as tar:
        for member in tar:
            file = tar.extractfile(member)
            found.append(file.read() if file else b"")
    return any(it.startswith(HOSTILE[:11]) for it in found)


def fault(module: Path) -> str:
    """Where the page is silent about what a reader gets to, or nothing."""
    dice = random.Random(SEED)
    with tempfile.TemporaryDirectory() as name, scripts() as its:
        files = Path(name)
        reads: Dict[str, bool] = {}
        for number in range(FILES):
            data = _damaged(dice)
            reads[f"{number:04}"] = _is_read(data)
            packed = gzip.compress(data, mtime=0) if dice.random() < 0.2 else data
            (files / f"{number:04}").write_bytes(packed)
        inner = Path(__file__).with_suffix(".mjs")
        words = ["node", *map(str, (inner, its, module, files))]
        told = json.dumps(begun())
        ran = subprocess.run(words, input=told, capture_output=True, text=True, check=False)
    lines = [line.split() for line in ran.stdout.splitlines()]
    if ran.returncode or len(lines) != FILES or not any(reads.values()):
        return f"{len(lines)} of {FILES} files were answered: {ran.stderr}"
    silent = [
        line
        for line in lines
        if line[1] != "done" or (reads[line[0]] and not {"no", "unread"}.intersection(line[2:]))
    ]
    return "".join(f"{' '.join(line)}\n" for line in silent[:5])

"""A guard that is installed in the whole interpreter: reader by reader, a hostile and an honest
file. In the control, without the guard, the hostile file runs its command.
"""

import datetime
import os
import pickle
import re
import subprocess
import sys
import tempfile
import unittest
from concurrent.futures import ThreadPoolExecutor
from pathlib import Path

import common
import everywhere

DOCUMENT = common.ROOT / "docs" / "EVERYWHERE.md"
BY_THE_NAMES, BY_THE_IMPORTS, BY_NEITHER = "before it is loaded", "at the import", "not"


class Hostile:
    def __init__(self, mark):
        self.mark = mark

    def __reduce__(self):
        return subprocess.getoutput, (f"touch {self.mark}",)


def asked(name, path, *mode):
    """What a child prints that loads a file through a reader."""
    environment = {**os.environ, "PYTHONPATH": str(common.IMPORTED_FROM)}
    words = [sys.executable, str(Path(everywhere.__file__)), name, str(path), *mode]
    ran = subprocess.run(words, capture_output=True, text=True, env=environment, timeout=900)
    assert ran.returncode == 0, (name, ran.stderr[-2000:])
    return ran.stdout.strip()


def found_for(name):
    """How a hostile file is refused under the guard, after the control."""
    with tempfile.TemporaryDirectory() as folder:
        room = Path(folder)
        mark, hostile, honest = room / "mark", room / "hostile", room / "honest"
        hostile.write_bytes(pickle.dumps(Hostile(mark), 4))
        honest.write_bytes(pickle.dumps(everywhere.HONEST, 2))
        asked(name, hostile)
        assert mark.exists(), f"{name}: the attack doesn't work without a guard"
        mark.unlink()
        answer = asked(name, hostile, "guarded")
        was_run = mark.exists()
        assert asked(name, honest, "guarded") == "loaded True", name
    if was_run:
        return BY_NEITHER
    return {"Refused": BY_THE_NAMES, "Unlisted": BY_THE_IMPORTS}[answer]


class Everywhere(unittest.TestCase):
    @common.needs("semaphores")
    def test_readers_as_documented(self):
        text = DOCUMENT.read_text(encoding="utf-8")
        documented = {
            reader: found.lower()
            for found, readers in re.findall(r"(?ms)^- \*\*([A-Z][\w ]+)\*\*: (.+?)\.$", text)
            for reader in " ".join(readers.split()).split("; ")
        }
        names = sorted(everywhere.READERS)
        with ThreadPoolExecutor(4) as pool:
            found = dict(zip(names, pool.map(found_for, names)))
        self.assertEqual(found, {name: documented.get(name) for name in names})


if __name__ == "__main__":
    unittest.main()

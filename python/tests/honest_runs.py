"""Runs programs of `honest_programs.py`, for several tests."""

import os
import subprocess
import sys
import tempfile
import unittest
from pathlib import Path

import common

PROGRAM = Path(__file__).with_name("honest_programs.py")
HANGS = 1200
"""The seconds that only a hang takes."""


def printed(how, folder, *names):
    """What programs print."""
    path = os.pathsep.join([str(common.IMPORTED_FROM), str(PROGRAM.parent)])
    words = [sys.executable, "-W", "ignore", str(PROGRAM), how, str(Path(folder, "imports"))]
    with open(Path(folder, "said"), "w+", encoding="utf-8", errors="replace") as said:
        ran = subprocess.run(
            [*words, *names],
            cwd=folder,
            env={**os.environ, "PYTHONPATH": path, "OMP_NUM_THREADS": "1"},
            stdin=subprocess.DEVNULL,
            stdout=subprocess.PIPE,
            stderr=said,
            timeout=HANGS,
        )
        said.seek(0)
        assert ran.returncode == 0, (how, names, said.read()[-3000:])
    return ran.stdout.decode()


class Comparing(unittest.TestCase):
    def compare(self, *names):
        """Programs print under a guard what they print without one."""
        with tempfile.TemporaryDirectory() as folder:
            expected = printed("without", folder, *names)
            self.assertNotEqual(expected, "")
            for how in ("first", "last", "reporting"):
                with self.subTest(how=how):
                    self.assertEqual(printed(how, folder, *names), expected)

"""What hostile pickles do under ready-made lists, under this Python: nothing.

`hostile/arguments.py` calls every name of every list with whatever a pickle can make, and
`hostile/generated.py` loads as many generated pickles as it is told. Here are a few of both.
"""

import os
import subprocess
import sys
import unittest

from common import IMPORTED_FROM, PYTHON

HOSTILE = PYTHON / "tests" / "hostile"


@unittest.skipUnless(hasattr(os, "fork"), "children are forked")
@unittest.skipIf(sys.implementation.name == "pypy", "PyPy's collector takes memory as it likes")
class Hostile(unittest.TestCase):
    def run_of(self, script, *words):
        """What a script prints that finds nothing."""
        ran = subprocess.run(
            [sys.executable, str(HOSTILE / script), "--seconds", "20", *words],
            stdout=subprocess.PIPE, stderr=subprocess.STDOUT, encoding="utf-8", errors="replace",
            env={**os.environ, "PYTHONPATH": str(IMPORTED_FROM), "PYTHONDONTWRITEBYTECODE": "1"},
        )
        self.assertEqual(ran.returncode, 0, ran.stdout[-3000:])
        return ran.stdout

    def test_arguments(self):
        told = self.run_of("arguments.py", "STANDARD_TYPES", "COLLECTIONS")
        self.assertRegex(told, r"[2-9]\d names of storklocker.lists, 0 findings")

    def test_generated_pickles(self):
        told = self.run_of("generated.py", "--few", "--pickles", "1000")
        self.assertRegex(told, r"EXCEPTIONS: 1,000 pickles, \d\d\d accepted, \d\d\d loaded, 0 f")

    def test_what_is_wrong_is_found(self):
        """The control: the same, without a guard."""
        ran = subprocess.run(
            [sys.executable, str(HOSTILE / "unguarded.py")], stdout=subprocess.PIPE,
            env={**os.environ, "PYTHONPATH": str(IMPORTED_FROM)}, encoding="utf-8",
        )
        for word in ("takes too long", "memory", "ended: 6\n", "dangerous", "changes what was",
                     "ended: 6, after 2 others"):
            self.assertIn(word, ran.stdout)


if __name__ == "__main__":
    unittest.main()

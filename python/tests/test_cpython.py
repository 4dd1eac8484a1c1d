"""CPython's own tests of `pickle`, in a process of their own."""

import subprocess
import sys
import unittest
from pathlib import Path

from common import needs


class CPython(unittest.TestCase):
    @needs("module:test.pickletester")  # (Debian: libpython3.11-testsuite)
    def test_a_guard_does_what_pickle_does(self):
        program = Path(__file__).with_name("cpython.py")
        ran = subprocess.run([sys.executable, str(program)], capture_output=True, text=True)
        print(ran.stdout)
        self.assertEqual(ran.returncode, 0, ran.stdout + ran.stderr)
        self.assertRegex(ran.stdout, r"(?m)^[1-9]\d\d tests, .* 0 differ$")
        self.assertRegex(ran.stdout, r"(?m)^[2-9]\d\d\d pickles, 0 cost too much")

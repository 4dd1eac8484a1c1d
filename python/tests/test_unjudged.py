"""A guard says once which names of its list nobody has judged; `learn` and `lint` say it too."""

import contextlib
import io
import logging
import subprocess
import sys
import tempfile
import unittest
from pathlib import Path

import storklocker
from storklocker import AllowList, Guard, lists
from storklocker.scanning.command import UNJUDGED, main

NAMES = [("shop.models", f"Order{number}") for number in range(7)]


class Unjudged(unittest.TestCase):
    def logged(self, *given):
        """What guards of these lists log."""
        with self.assertLogs("storklocker", logging.INFO) as heard:
            logging.getLogger("storklocker").info("begun")
            for allow in given:
                Guard(allow)
        return [it.getMessage() for it in heard.records[1:]]

    def test_a_guard_says_it_once(self):
        many = AllowList([*NAMES, ("builtins", "set"), ("numpy", "dtype")])
        said = self.logged(many, many, AllowList(NAMES), AllowList(NAMES[:1]))
        self.assertEqual(len(said), 2, said)
        self.assertIn("has 7 names that nobody has judged: shop.models.Order0, ", said[0])
        self.assertIn(" and 2 more. `storklocker judge`", said[0])
        self.assertIn("has 1 name that nobody has judged: shop.models.Order0. ", said[1])

    def test_a_guard_of_judged_names_says_nothing(self):
        every = [getattr(lists, name) for name in lists.__all__]
        meant = AllowList([("shop", "Meant")], dangerous=["shop.Meant"])
        known = AllowList([("builtins", "set"), ("itertools", "count"), ("UserDict", "UserDict")])
        said = storklocker.substitutes.getattr({"shop.Color": None})
        own = AllowList([("shop", "f")], substitutes={("shop", "f"): said})
        self.assertEqual(self.logged(*every, meant, known, own, AllowList([])), [])

    def test_nobody_hears_it_nothing_is_read(self):
        text = "import sys, storklocker\n{}storklocker.Guard(storklocker.AllowList([('a', 'b')]))\n"
        text += "print('storklocker.scanning.dangers' in sys.modules)"
        quiet = "import logging\n"
        loud = "import logging; logging.basicConfig(level=logging.INFO)\n"
        for front, is_read in (("", "False"), (quiet, "False"), (loud, "True")):
            ran = subprocess.run([sys.executable, "-c", text.format(front)], check=True,
                                 stdout=subprocess.PIPE, stderr=subprocess.DEVNULL)
            self.assertEqual(ran.stdout.decode().strip(), is_read, front)

    def test_learn_and_lint_say_it(self):
        with tempfile.TemporaryDirectory() as folder:
            data, path = Path(folder, "a.pickle"), Path(folder, "list.toml")
            data.write_bytes(b"cshop.models\nOrder\n.")
            out = io.StringIO()
            with contextlib.redirect_stdout(out), contextlib.redirect_stderr(io.StringIO()):
                main(["learn", str(data)])
                path.write_text(out.getvalue(), encoding="utf-8")
                status = main(["lint", str(path)])
            above, _, below = out.getvalue().partition("# Nobody has judged what")
            self.assertNotIn("Order", above)
            self.assertIn('"Order"', below.splitlines()[1])
            self.assertIn("0 dangerous, 0 warnings, 1 not judged", out.getvalue())
            self.assertEqual(status, UNJUDGED)


if __name__ == "__main__":
    unittest.main()

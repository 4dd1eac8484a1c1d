"""The defaults that `pyproject.toml` sets for `storklocker scan`."""

import argparse
import os
import sys
import unittest
import unittest.mock
from pathlib import Path

from storklocker.scanning import configuring
from storklocker.scanning.command import command_parser
from test_scan_options import PARTIAL, Options
from test_scanning import BAD, GOOD

HAS_TOML = sys.version_info >= (3, 11)


class Configuration(Options):
    def configured(self, text, name="pyproject.toml"):
        return self.put(name, f"[project]\nname = 'a'\n\n[tool.storklocker]\n{text}\n")

    @unittest.skipUnless(HAS_TOML, "without tomllib")
    def test_it_sets_defaults(self):
        self.put("part", PARTIAL)
        self.assertEqual(self.ran("scan", "part")[0], 1)
        self.configured('fail-on = "danger"\nexclude = ["x*"]\njobs = 1\nquiet = false')
        status, _, errors = self.ran("scan", "part")
        self.assertEqual(status, 0)
        self.assertIn("pyproject.toml: fail-on, exclude, jobs, quiet\n", errors)
        for words, status in ((("--fail-on", "warning"), 1), (("--no-config",), 1),
                              (("--isolated",), 1), (("--jobs", "1"), 0)):
            self.assertEqual(self.ran("scan", "part", *words)[0], status, words)

    @unittest.skipUnless(HAS_TOML, "without tomllib")
    def test_lists_are_replaced_by_the_command_line(self):
        self.put("good", GOOD)
        self.put("lists/none.toml", "version = 2\n[imports]\n")
        self.configured('allow = ["lists/none.toml"]')
        self.assertEqual(self.ran("scan", "good")[0], 1)
        self.assertEqual(self.ran("scan", "good", "--allow", "list.toml")[0], 0)
        self.configured('allow = ["@collections,@datetime"]')
        self.assertEqual(self.ran("scan", "good")[0], 0)
        self.configured('allow = "lists/none.toml"')
        (self.folder / "below").mkdir()
        os.chdir("below")
        self.assertEqual(self.ran("scan", "../good")[0], 1, "a path counts from the file's folder")

    @unittest.skipUnless(HAS_TOML, "without tomllib")
    def test_a_scanned_folder_chooses_nothing(self):
        """Its author would choose what counts."""
        self.put("foreign/bad", BAD)
        self.configured('fail-on = "never"\nexclude = ["*"]', "foreign/pyproject.toml")
        for path in ("foreign", "foreign/bad", "./foreign", self.folder / "foreign"):
            self.assertEqual(self.ran("scan", path)[0], 1, path)

    @unittest.skipUnless(HAS_TOML, "without tomllib")
    def test_a_file_of_another_user_is_not_taken(self):
        self.configured('fail-on = "never"')
        self.put("bad", BAD)
        with unittest.mock.patch("os.getuid", return_value=os.stat("bad").st_uid + 1):
            if os.stat("bad").st_uid:
                status, _, errors = self.ran("scan", "bad")
                self.assertEqual(status, 2)
                self.assertIn("belongs to another user: --no-config", errors)
        if os.getuid() == 0:
            os.chown("pyproject.toml", 12345, 12345)
            self.assertEqual(self.ran("scan", "bad")[0], 2)
            self.assertEqual(self.ran("scan", "bad", "--no-config")[0], 1)

    @unittest.skipUnless(HAS_TOML, "without tomllib")
    def test_faults(self):
        self.put("good", GOOD)
        for text, why in (
            ('fail_on = "never"', "has no fail_on"), ('fail-on = "x"', "fail-on: expected one of"),
            ("fail-on = 1", "fail-on: expected a text"), ('jobs = "2"', "jobs: expected a number"),
            ("jobs = 0", "jobs: expected a number from 1"), ("jobs = true", "jobs: expected a num"),
            ("allow = [1]", "allow: expected a text or a list"), ("quiet = 1", "quiet: expected t"),
            ('resume = "x"', "has no resume"), ('cluster = "x"', "has no cluster"),
            ('"\x1b" = 1', ""), ("allow = ", ""),
        ):
            self.configured(text)
            status, out, errors = self.ran("scan", "good")
            self.assertEqual((status, out), (2, ""), text)
            self.assertIn("pyproject.toml: ", errors)
            self.assertIn(why, errors)
            self.assertNotIn("\x1b", errors)
            self.assertEqual(self.ran("scan", "good", "--no-config")[0], 0)

    def test_other_projects_are_left_alone(self):
        self.put("good", GOOD)
        for text in ("[project]\ndependencies = ['storklocker']\n", "[tool.black]\n", "\xff["):
            self.put("pyproject.toml", text)
            self.assertEqual(self.ran("scan", "good")[::2], (0, ""), text)

    @unittest.skipIf(HAS_TOML, "with tomllib")
    def test_without_a_reader_of_toml(self):
        self.put("good", GOOD)
        self.configured('fail-on = "never"')
        with unittest.mock.patch.dict(sys.modules, tomli=None):
            status, _, errors = self.ran("scan", "good")
        self.assertEqual(status, 2)
        self.assertIn("needs Python 3.11, or the package tomli", errors)

    def test_where_the_table_seems_to_begin(self):
        for text in (
            "[tool.storklocker]", " [ \"tool\" . 'storklocker' ]", "[tool]\nstorklocker.jobs = 1",
            "tool.storklocker.jobs = 1", "tool = {storklocker = {}}", "[tool.storklocker.more]",
        ):
            self.assertTrue(configuring._has_table(text), text)
        for text in (
            "[project.scripts]\nstorklocker = 'storklocker:main'", "storklocker = 1",
            "[project]\nname = 'storklocker'", "[tool.other]\nstorklocker = 1",
        ):
            self.assertFalse(configuring._has_table(text), text)

    def test_every_option_has_a_kind_that_is_read(self):
        its = command_parser("scan")._subparsers._group_actions[0].choices["scan"]
        for action in its._actions:
            for name in action.option_strings:
                if name[2:] not in configuring._NEVER and name.startswith("--"):
                    with self.assertRaises((ValueError, argparse.ArgumentTypeError), msg=name):
                        configuring._value(action, name[2:], {}, Path("/pyproject.toml"))


if __name__ == "__main__":
    unittest.main()

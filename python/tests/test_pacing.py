"""Scans at a bounded rate, and scans that go on with what is added."""

import contextlib
import io
import itertools
import pickle
import sys
import time
import unittest
from unittest import mock

import test_scanning
from storklocker.scanning import pacing, scan
from storklocker.scanning.files import File, Files
from storklocker.scanning.judging import Question
from test_scanning import BAD, GOOD


class Pacing(unittest.TestCase):
    setUp, put = test_scanning.Scanning.setUp, test_scanning.Scanning.put
    run_command = test_scanning.Scanning.run_command

    def test_at_most_so_many_a_second(self):
        began = time.monotonic()
        self.assertEqual(len(list(pacing.paced([File("a")] * 6, 50))), 6)
        self.assertGreaterEqual(time.monotonic() - began, 0.1)

    def test_files_that_are_known_take_no_time(self):
        with mock.patch.object(time, "sleep", side_effect=AssertionError):
            self.assertEqual(len(list(pacing.paced([File("a", known=())] * 9, 0.001))), 9)

    def test_rates_that_are_none(self):
        for word in ("0", "-1", "nan", "inf", "1e-9", "text"):
            with contextlib.redirect_stderr(io.StringIO()) as errors:
                with self.assertRaises(SystemExit):
                    self.run_command("scan", self.folder, f"--rate={word}")
            self.assertIn("--rate: expected a number from 0.001", errors.getvalue())

    def test_what_is_added_to_a_log_and_to_a_folder(self):
        folder = self.folder / "logs"
        folder.mkdir()
        path = self.put("logs/log", GOOD)
        with mock.patch.object(pacing, "_PAUSE", 0.01):
            found = scan.scan(pacing.grown(Files([str(folder)])), Question())
            first = next(found)
            self.assertEqual((first.path, first.pickles), (str(path), 1))
            with open(path, "ab") as log:
                log.write(pickle.dumps([1]))
            self.assertEqual(next(found).pickles, 2)
            with open(path, "ab") as log:
                log.write(BAD)
            self.put("logs/other", GOOD)
            last = list(itertools.islice(found, 2))
            self.assertEqual({it.path for it in last}, {str(path), str(folder / "other")})
            self.assertIn("dangerous", {it.status for it in last})

    def test_values_that_are_forgotten_are_told_again(self):
        values = [File("k!0", value=b"a"), File("k!1", value=b"b"), File("k!2", value=b"a")]
        with mock.patch.multiple(pacing, _PAUSE=0, _SHARE=0):
            found = [it.value for it in itertools.islice(pacing.grown(values + values), 2)]
            self.assertEqual(found, [b"a", b"b"])
            with mock.patch.object(pacing, "_MOST", 1):
                found = itertools.islice(pacing.grown(values), 6)
                self.assertEqual([it.value for it in found], [b"a", b"b", b"a", b"b", b"a", b"b"])

    def test_what_it_needs(self):
        for words in ((), ("--format", "ndjson", "--jobs", "2"), ("--format", "json")):
            with contextlib.redirect_stderr(io.StringIO()) as errors:
                with self.assertRaises(SystemExit):
                    self.run_command("scan", self.folder, "--follow", *words)
            self.assertIn("--follow needs --format ndjson", errors.getvalue())


if __name__ == "__main__":
    sys.exit(unittest.main())

"""Scans that go on: a file that ends the process that reads it, and a second run after a first."""

import contextlib
import io
import json
import os
import pathlib
import tempfile
import unittest
from unittest import mock

import common
import test_scanning
from storklocker.scanning import files, lacking, one_file, scan
from storklocker.scanning.file import File
from storklocker.scanning.files import Files
from storklocker.scanning.isolated import Isolated
from storklocker.scanning.judging import Question
from storklocker.scanning.report import report_of
from test_scanning import BAD, GOOD

# read by the process when it starts; what stands for a fault in a library that ends it
ENDING = """
import os, sys
def end(event, arguments):
    if event == "open" and str(arguments[0]).endswith("ending"):
        with open(arguments[0] + ".times", "a") as count:
            count.write("x")
        os._exit(9)
sys.addaudithook(end)
"""


class Ending(unittest.TestCase):
    setUp, put = test_scanning.Scanning.setUp, test_scanning.Scanning.put

    def test_a_file_that_ends_its_process_is_a_finding_after_the_second_try(self):
        self.put("sitecustomize.py", ENDING.encode())
        paths = [self.put("good", GOOD), self.put("ending", GOOD), self.put("bad", BAD)]
        with mock.patch.dict(os.environ, PYTHONPATH=str(self.folder)):
            scanner = Isolated(Question())
            self.addCleanup(scanner.end)
            with mock.patch("storklocker.scanning.isolated._PACKAGE", self.first(str(self.folder))):
                reports = [scanner.scan(File(path)) for path in paths]
        self.assertEqual([it.status for [it] in reports], ["unjudged", "unreadable", "dangerous"])
        self.assertIn("ended, 2 times", reports[1][0].why)
        self.assertEqual((self.folder / "ending.times").read_text(), "xx")
        for path, found in zip(paths, reports):
            if not path.endswith("ending"):
                found = [it._replace(verdict=None) for it in found]
                self.assertEqual(found, one_file.scan_file(File(path), Question()))

    @staticmethod
    def first(folder):
        """A path with a folder in front of the package."""
        return os.pathsep.join([folder, str(pathlib.Path(scan.__file__).resolve().parents[2])])

    def test_reports_are_the_same_as_json(self):
        for name, data in (("bad", BAD), ("cut", GOOD[:30]), ("none", b""), ("\udc80", GOOD)):
            for allow in (None, test_scanning.storklocker.AllowList([("a", "b")])):
                found = one_file.scan_file(File(self.put(name, data)), Question(allow))
                again = [report_of(json.loads(json.dumps(it.as_dict()))) for it in found]
                self.assertEqual([it._replace(verdict=None) for it in again], found)


class Resuming(unittest.TestCase):
    setUp, put = test_scanning.Scanning.setUp, test_scanning.Scanning.put
    run_command = test_scanning.Scanning.run_command

    def scans(self, *words):
        """What the command prints, and which files it reads."""
        read, real = [], one_file.scan_file

        def noted(file, question):
            read.append(os.path.basename(file.path))
            return real(file, question)

        with mock.patch.object(one_file, "scan_file", noted):
            status, out = self.run_command("scan", self.folder / "f", *words)
        return status, out, read

    def test_a_second_run_reads_what_is_new(self):
        (self.folder / "f").mkdir()
        for name in ("a", "b", "c"):
            self.put(f"f/{name}", GOOD)
        words = ("--resume", self.folder / "store")
        first = self.scans(*words)
        self.assertEqual(first[2], ["a", "b", "c"])
        self.assertEqual(self.scans(*words), (*first[:2], []))
        self.put("f/b", BAD)
        status, out, read = self.scans(*words)
        self.assertEqual((status, read), (1, ["b"]))
        self.assertEqual((status, out), self.scans()[:2])

    def test_a_file_with_the_size_and_time_of_another(self):
        (self.folder / "f").mkdir()
        words, path = ("--resume", self.folder / "store"), self.put("f/a", GOOD)
        self.assertEqual(self.scans(*words)[::2], (0, ["a"]))
        before = os.stat(path)
        other = BAD[:-1] + b"0" + b"N0" * len(GOOD)
        self.put("f/a", (other[: len(GOOD) - 2] + b"N.").ljust(len(GOOD), b"."))
        while os.stat(path).st_ctime_ns == before.st_ctime_ns:  # its clock has ticks
            os.utime(path, ns=(before.st_atime_ns, before.st_mtime_ns))
        os.utime(path, ns=(before.st_atime_ns, before.st_mtime_ns))
        after = os.stat(path)
        same = [(it.st_size, it.st_mtime_ns) for it in (before, after)]
        self.assertEqual(same[0], same[1], "the control")
        self.assertEqual(self.scans(*words)[::2], (1, ["a"]))

    def test_a_file_in_place_of_another_of_its_size_and_time(self):
        (self.folder / "f").mkdir()
        words, path = ("--resume", self.folder / "store"), self.put("f/a", GOOD)
        self.assertEqual(self.scans(*words)[::2], (0, ["a"]))
        before = os.stat(path)
        other = self.put("other", BAD.ljust(len(GOOD), b"."))
        os.utime(other, ns=(before.st_atime_ns, before.st_mtime_ns))
        os.replace(other, path)
        after = os.stat(path)
        same = [(it.st_size, it.st_mtime_ns) for it in (before, after)]
        self.assertEqual(same[0], same[1], "the control")
        self.assertNotEqual(before.st_ino, after.st_ino)
        self.assertEqual(self.scans(*words)[::2], (1, ["a"]))

    def test_what_could_not_be_read_is_read_again(self):
        (self.folder / "f").mkdir()
        self.put("f/a", GOOD)
        words = ("--resume", self.folder / "store")
        with mock.patch.object(one_file, "_descriptor_of", side_effect=OSError("no answer")):
            self.assertEqual(self.scans(*words)[::2], (2, ["a"]))
        self.assertEqual(self.scans(*words)[::2], (0, ["a"]))
        self.assertEqual(self.scans(*words)[::2], (0, []))

    def test_the_store_of_another_question(self):
        (self.folder / "f").mkdir()
        words = ("scan", self.folder / "f", "--resume", self.folder / "store")
        self.assertEqual(self.run_command(*words)[0], 0)
        with contextlib.redirect_stderr(io.StringIO()) as errors:
            self.assertEqual(self.run_command(*words, "--allow", self.list)[0], 2)
            self.put("text", b"A text that is no store\n")
            self.assertEqual(self.run_command(*words[:3], self.folder / "text")[0], 2)
        self.assertIn("belongs to a scan with another list", errors.getvalue())
        self.assertIn("isn't a file of --resume", errors.getvalue())


class Listing(unittest.TestCase):
    def test_a_large_folder_is_listed_in_blocks(self):
        with tempfile.TemporaryDirectory() as name:
            for number in range(25):
                pathlib.Path(name, f"{number:02}").touch()
            with mock.patch.object(files, "_BLOCK", 4):
                found = [os.path.basename(it.path) for it in Files([name])]
        self.assertEqual(sorted(found), [f"{number:02}" for number in range(25)])

    def test_urls_without_their_packages(self):
        with mock.patch.dict("sys.modules", {"fsspec": None, "fsspec.core": None}):
            with self.assertRaisesRegex(OSError, "needs the package fsspec"):
                list(Files(["memory://folder"]))
        with mock.patch.dict("sys.modules", {"distributed": None}):
            with self.assertRaisesRegex(OSError, "needs the package distributed"):
                list(scan.scan([], Question(), scan.Means(cluster="tcp://127.0.0.1:1")))

    def test_an_error_names_an_extra_of_the_package(self):
        project = pathlib.Path(common.PYTHON, "pyproject.toml")
        if not project.exists():
            self.skipTest("no pyproject.toml here")
        text = project.read_text(encoding="utf-8")
        for what, extra in lacking.EXTRAS.items():
            self.assertRegex(text, rf"(?m)^{extra} = \[")
            error = str(lacking.needs(f"{what}://a/b", "p"))
            self.assertTrue(error.endswith(f"pip install 'storklocker[{extra}]'"), error)
        with mock.patch.dict("sys.modules", {"s3fs": None}):
            with self.assertRaisesRegex(OSError, r"(needs|fsspec).*pip install .*(s3|fsspec)"):
                list(Files(["s3://bucket/object"]))


if __name__ == "__main__":
    unittest.main()

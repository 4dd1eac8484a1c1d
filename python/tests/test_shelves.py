"""`scan` on shelves of `dbm.dumb`, whose values are at the places that another file names."""

import dbm.dumb
import gzip
import importlib
import pathlib
import pickle
import shelve
import tempfile
import unittest

import test_readings
from common import needs
from storklocker.scanning import isolated, one_file, scan
from storklocker.scanning.file import File
from storklocker.scanning.files import Files
from storklocker.scanning.judging import Question
from storklocker.scanning.names import NOTHING
from test_scanning import tarred, zipped

HIDDEN = b"S'builtins'\nS'print'\n\x93."
"""A pickle that no search for what begins like one finds."""
LINES = (
    "'x', ({}, {})\n", "'x', ({}, -1)\n", "'x', ({}, None)\n", "'x', [{}, {}]\n",
    " \t'x', ({}, {})", "('x'), ({}, {})\r", "'x', ({}, {})\n'y', 'no place'\n",
)
"""What readers take for the place of a value."""


class Shelves(unittest.TestCase):
    def setUp(self):
        made = tempfile.TemporaryDirectory()
        self.addCleanup(made.cleanup)
        self.path = pathlib.Path(made.name, "shelf")

    def part(self, end):
        return self.path.with_name("shelf" + end)

    def made(self, values):
        """A shelf with these values."""
        for end in (".dat", ".dir", ".bak"):
            if self.part(end).exists():
                self.part(end).unlink()
        with shelve.Shelf(dbm.dumb.open(str(self.path), "n")) as shelf:
            for key, value in values:
                shelf[key] = value

    def wrapped(self):
        """The shelf in containers."""
        data, places = (self.part(end).read_bytes() for end in (".dat", ".dir"))
        for members in ((("s.dat", data), ("s.dir", places)), (("s.dir", places), ("s.dat", data))):
            yield tarred(*members)
            yield zipped(*members)
            yield zipped(("in.tar.gz", gzip.compress(tarred(*members))))

    def check(self, is_evil):
        """That the shelf is a finding, or not, on a disk and in containers."""
        found = one_file.scan_file(File(str(self.part(".dat"))), Question(NOTHING))
        self.assertEqual(any(it.is_finding for it in found), is_evil, found)
        for data in self.wrapped():
            found = test_readings.reports(data)
            self.assertEqual(any(it.is_finding for it in found), is_evil, found)

    def test_values(self):
        self.made([("a", 1), ("b", print)])
        with shelve.Shelf(dbm.dumb.open(str(self.path), "r")) as shelf:
            self.assertIs(shelf["b"], print)
        self.check(True)

    def test_places_that_no_library_writes(self):
        for line in LINES:
            data = b"a text in front, and then " + HIDDEN
            self.made([])
            self.part(".dat").write_bytes(data)
            self.part(".dir").write_text(line.format(len(data) - len(HIDDEN), len(HIDDEN)))
            if not line.startswith(" "):  # (since Python 3.9)
                with shelve.Shelf(dbm.dumb.open(str(self.path), "r")) as shelf:
                    self.assertIs(shelf["x"], print)
            self.check(True)

    def test_a_row_beside_honest_places(self):
        self.made([("a", 1)])
        with self.part(".dat").open("ab") as file:
            file.write(pickle.dumps(print, 2))
        self.check(True)

    def test_honest_shelves(self):
        for protocol in range(pickle.HIGHEST_PROTOCOL + 1):
            values = [("é'\"\n", {"a": 1}), ("large", "text" * 999), ("", [1.5]), ("n", None)]
            self.made(values)
            with shelve.Shelf(dbm.dumb.open(str(self.path), "w"), protocol) as shelf:
                shelf.update({str(number): [number] * number for number in range(99)})
                shelf.update({str(number): number for number in range(50)})
                del shelf["60"]
            self.check(False)
        self.made([])
        self.check(False)

    def test_values_with_more_in_front(self):
        """As dogpile.cache stores them."""
        for value, is_evil in ((print, True), ([1.5, "text"], False)):
            self.made([])
            with dbm.dumb.open(str(self.path), "w") as base:
                base["key"] = b'{"v": 2, "ct": 1700000000.5}|' + pickle.dumps(value)
            self.check(is_evil)

    def test_places_that_cannot_be_read(self):
        self.made([("a", 1)])
        self.part(".dir").write_text("'a', (0, 9)\n'b' (\n")
        self.check(True)
        self.part(".dir").write_text("a text of another program\n")
        self.check(False)

    def test_a_second_run_reads_a_shelf_with_other_places(self):
        self.made([("a", 1)])
        self.part(".dat").write_bytes(self.part(".dat").read_bytes() + bytes(600) + HIDDEN)
        store = scan.Means(resume=str(self.path) + ".scan")
        for line in ("", f"'b', ({self.part('.dat').stat().st_size - len(HIDDEN)}, 99)\n"):
            with self.part(".dir").open("a") as file:
                file.write(line)
            found = list(scan.scan(Files([str(self.part(".dat"))]), Question(NOTHING), store))
            self.assertEqual(any(it.is_finding for it in found), bool(line), found)

    @needs("module:fsspec")
    def test_urls(self):
        memory = importlib.import_module("fsspec").filesystem("memory")
        self.made([("a", 1), ("b", print)])
        for end in (".dat", ".dir"):
            memory.pipe(f"memory://shelf{end}", self.part(end).read_bytes())
        self.addCleanup(memory.store.clear)
        (file,) = Files(["memory://shelf.dat"])
        process = isolated.Isolated(Question(NOTHING))
        self.addCleanup(process.end)
        for found in (one_file.scan_file(file, Question(NOTHING)), process.scan(file)):
            self.assertTrue(any(it.is_finding for it in found), found)
        memory.rm("memory://shelf.dir")
        memory.pipe("memory://shelf.dat", pickle.dumps(1, 2))
        for found in (one_file.scan_file(file, Question(NOTHING)), process.scan(file)):
            self.assertEqual([it.status for it in found], ["accepted"])


if __name__ == "__main__":
    unittest.main()

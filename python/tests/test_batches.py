"""`scan` tells of values that are looked at many at once what it tells of each."""

import datetime
import importlib
import io
import pathlib
import pickle
import sqlite3
import tarfile
import tempfile
import unittest
import zipfile
from unittest import mock

from storklocker import AllowList
from storklocker.scanning.file import File
from storklocker.scanning.judging import Question
from storklocker.scanning.one_file import scan_file
from storklocker.scanning.values import Values

LISTED = AllowList([datetime.datetime])
COUNT, ODD = 140, 110
NOON = datetime.datetime(2026, 1, 1, 12)
PLAIN = [pickle.dumps([number, NOON, "os", "x" * 900], 4) for number in range(COUNT)]
EVIL = b"\x80\x04cos\nsystem\n\x8c\x04true\x85R."
ODDITIES = {
    "none": PLAIN[ODD],
    "a call": EVIL,
    "another name": pickle.dumps(pathlib.PurePosixPath, 4),
    "a text that looks like a call": pickle.dumps("cos\nsystem\n(S'true'\ntR.", 4),
    "a call behind a value": PLAIN[0] + EVIL,
    "a call in a value": b"\x80\x04C\x20" + EVIL.ljust(32) + b".",
    "a cut value": PLAIN[ODD][:-2],
    "a call without PROTO": EVIL[2:],
    "a zip file": pickle.dumps(b"PK\x05\x06" + bytes(18), 4),
    "nothing": b"",
}


def filled(store, values):
    for number, data in enumerate(values):
        store[b"key %d" % number] = data
    store.close()


def of_dbm(name):
    def make(path, values):
        filled(importlib.import_module(name).open(str(path), "n"), values)

    return make


def sqlite(path, values):
    base = sqlite3.connect(str(path))
    base.execute("create table kept (name text primary key, value blob)")
    base.executemany("insert into kept values (?, ?)", enumerate(values))
    base.commit()
    base.close()


def lmdb(path, values):
    module = importlib.import_module("lmdb")
    base = module.open(str(path), subdir=False, lock=False, map_size=1 << 24)
    with base.begin(write=True) as change:
        for number, data in enumerate(values):
            change.put(b"key %d" % number, data)
    base.close()


def zipped(packing):
    def make(path, values):
        with zipfile.ZipFile(path, "w", packing) as archive:
            for number, data in enumerate(values):
                archive.writestr(f"{number}.pickle", data)

    return make


def tarred(path, values):
    with tarfile.open(path, "w") as archive:
        for number, data in enumerate(values):
            member = tarfile.TarInfo(f"{number}.pickle")
            member.size = len(data)
            archive.addfile(member, io.BytesIO(data))


STORES = {
    "dbm.dumb": of_dbm("dbm.dumb"),
    "dbm.gnu": of_dbm("dbm.gnu"),
    "dbm.ndbm": of_dbm("dbm.ndbm"),
    "LMDB": lmdb,
    "SQLite": sqlite,
    "zip": zipped(zipfile.ZIP_STORED),
    "zip, deflated": zipped(zipfile.ZIP_DEFLATED),
    "tar": tarred,
}


def reports(folder, allow):
    paths = sorted(path for path in folder.iterdir() if path.suffix != ".bak")
    return [it.as_dict() for path in paths for it in scan_file(File(str(path)), Question(allow))]


class Batches(unittest.TestCase):
    def made(self, name, odd):
        """A folder with a store, one of whose values is odd."""
        folder = tempfile.TemporaryDirectory()
        self.addCleanup(folder.cleanup)
        values = [*PLAIN[:ODD], odd, *PLAIN[ODD + 1 :]]
        try:
            STORES[name](pathlib.Path(folder.name, "store"), values)
        except ImportError as error:
            self.skipTest(str(error))
        return pathlib.Path(folder.name)

    def test_what_is_told_is_the_same(self):
        """The control looks at each by itself."""
        for name in STORES:
            for what, odd in ODDITIES.items():
                for allow in (LISTED, None):
                    with self.subTest(store=name, odd=what, listed=allow is not None):
                        folder = self.made(name, odd)
                        told = reports(folder, allow)
                        with mock.patch.object(Values, "quiet_of", lambda *_: (0, 0)):
                            self.assertEqual(told, reports(folder, allow))
                        if what in ("a call", "a call without PROTO"):
                            self.assertTrue(any(it["findings"] for it in told), told)

    def test_they_are_looked_at_together(self):
        for name in STORES:
            with self.subTest(store=name):
                folder, looks = self.made(name, PLAIN[ODD]), []
                look = Values.quiet_of

                def counted(self, *parts, look=look, looks=looks):
                    looks.append(look(self, *parts)[0])
                    return look(self, *parts)

                with mock.patch.object(Values, "quiet_of", counted):
                    self.assertTrue(reports(folder, LISTED))
                self.assertGreater(sum(looks), COUNT // 8)
                self.assertLess(2 * len(looks), sum(looks))


if __name__ == "__main__":
    unittest.main()

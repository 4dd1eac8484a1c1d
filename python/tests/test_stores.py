"""`scan` on files of databases, HDF5, Arrow and Parquet with pickles in them."""

import base64
import colorsys
import contextlib
import datetime
import importlib
import io
import pathlib
import pickle
import shelve
import sqlite3
import struct
import tempfile
import unittest

import storklocker
import test_readings
from common import needs
from storklocker import AllowList, Reason
from test_readings import EVIL, RUNS, reports

GOOD = [pickle.dumps([1, "text", {"a": 2.5}], protocol) for protocol in (2, 4)]
SHELVES = {"dbm.gnu": "GDBM", "dbm.ndbm": "Berkeley DB", "dbm.sqlite3": "SQLite"}
"""Modules of `dbm`, and the format of their files."""


def reads_on():
    """Whether `pickle.loads` goes on where a frame ends within a text."""
    try:
        return pickle.loads(b"\x95\x03" + bytes(7) + b"\x8c\x04text.") == "text"
    except pickle.UnpicklingError:
        return False


def shelf_modules():
    """The modules of `dbm` that are here, by their names. Skips the test if there is none."""
    found = {}
    for name in SHELVES:
        with contextlib.suppress(ImportError):
            found[name] = importlib.import_module(name)
    if not found:
        raise unittest.SkipTest("no module of dbm")
    return found


class Stores(unittest.TestCase):
    def setUp(self):
        made = tempfile.TemporaryDirectory()
        self.addCleanup(made.cleanup)
        self.folder = pathlib.Path(made.name)

    def files(self):
        """The bytes of each file in the folder that is not empty."""
        found = [path.read_bytes() for path in self.folder.iterdir()]
        return [data for data in found if data]

    def check(self, data, kind, is_evil):
        for wrap in (bytes, lambda data: test_readings.zipped(("x", data))):
            found = reports(wrap(data), AllowList([]))
            self.assertEqual(any(it.is_finding for it in found), is_evil, found)
            self.assertEqual({it.kind for it in found}, {kind})

    def sqlite(self, *values):
        path = self.folder / "base"
        base = sqlite3.connect(str(path))
        base.execute("create table kept (value blob)")
        base.executemany("insert into kept values (?)", [(value,) for value in values])
        base.commit()
        base.close()
        data = path.read_bytes()
        path.unlink()
        return data

    def test_blobs(self):
        self.check(self.sqlite(b"text", 1, None, *GOOD), "SQLite", False)
        large = b"\x80\x02B" + (9000).to_bytes(4, "little") + bytes(9000) + b"0" + RUNS
        for value in (EVIL, RUNS, b"(" + RUNS, large, pickle.dumps(print, 4)):
            self.check(self.sqlite(*GOOD, value), "SQLite", True)

    def test_blobs_of_digits(self):
        for spelled in (bytes.hex, lambda data: data.hex().upper(), lambda data: f"{data.hex()}\n"):
            for value, is_evil in ((GOOD[1], False), (EVIL, True), (pickle.dumps(print, 4), True)):
                text = spelled(value)
                self.assertEqual(bytes.fromhex(text), value)
                self.check(self.sqlite(text), "SQLite, packed", is_evil)

    def test_frames_that_end_inside_an_argument(self):
        """`pickle.loads` runs what nobody has judged, behind a frame that readers of files misread.
        """
        texts = b"\x8c\x08colorsys\x940\x8c\x0argb_to_hls\x940h\0h\x01\x93"
        value = b"\x80\x04\x95%b\x8c\x04text0" + texts + b"(K\0K\0K\0tR."
        for length in (1, 2, 5):
            framed = value % length.to_bytes(8, "little")
            if length < 5 or reads_on():
                self.assertEqual(pickle.loads(framed), colorsys.rgb_to_hls(0, 0, 0))
            verdict = storklocker.check(framed, AllowList([]))
            self.assertIs(verdict.reason, Reason.BrokenFrame)
            self.check(self.sqlite(*GOOD, framed), "SQLite", True)
        cut = pickle.dumps(["text" * 9, "other" * 9], 4)[:40]
        self.check(self.sqlite(*GOOD, cut), "SQLite", False)

    def test_frames_that_hide_an_import(self):
        """The reader of files in C imports what no line shows, from a pickle without a PROTO."""

        class Named(pickle.Unpickler):
            def find_class(self, module, name):
                found.append((module, name))
                return str

        def frame(size):
            return b"\x95" + size.to_bytes(8, "little")

        for value in (
            b"(0" + frame(5) + b"cos\n system\n.",
            b"N" + frame(6) + b"0cos\n system\n.",
            b"N" + frame(4) + b"0\x8c\x02aos\x8c\x06system\x93.",
            b"N" + frame(4) + b"0\x8c\x02aos" + frame(2) + b"\x8c\x06system\x93.",
        ):
            found = []
            with contextlib.suppress(pickle.UnpicklingError):
                Named(io.BytesIO(value)).load()
            self.assertEqual(found[:1], [("os", "system")], "the control")
            for name, module in shelf_modules().items():
                with contextlib.closing(module.open(str(self.folder / "shelf"), "c")) as file:
                    file[b"key"], file[b"other"] = value, GOOD[1]
                self.check(self.files()[0], SHELVES[name], True)
                for it in self.folder.iterdir():
                    it.unlink()

    def test_shelves(self):
        for name, module in shelf_modules().items():
            for value, is_evil in (([1, 2], False), (print, True)):
                path = str(self.folder / "shelf")
                with shelve.Shelf(module.open(path, "c")) as shelf:
                    shelf["a"], shelf["b"] = value, "text"
                with shelve.open(path) as shelf:
                    self.assertEqual(shelf["a"], value)  # it is read, so loaded
                (data,) = self.files()
                self.check(data, SHELVES[name], is_evil)
                for path in self.folder.iterdir():
                    path.unlink()

    @needs("module:_dbm")
    def test_long_values_of_ndbm(self):
        """Berkeley DB cuts a value into pages, each with a header."""
        from dbm import ndbm

        long = b"X" + struct.pack("<I", 9_999) + b"a" * 9_999 + b"0"
        module, name = b"\x8c\x08colorsys\x940", b"\x8c\x0argb_to_hls\x940"
        hostile = module + long + name + long + b"h\0h\1\x93(K\0K\0K\0tR."
        honest = pickle.dumps([datetime.date(2026, 1, 1), *map(str, range(9_999))], 4)
        self.assertEqual(pickle.loads(hostile), colorsys.rgb_to_hls(0, 0, 0))
        listed = AllowList([("datetime", "date")])
        for value, is_evil in ((hostile, True), (b"N0" + hostile, True), (honest, False)):
            path = str(self.folder / "base")
            with ndbm.open(path, "n") as base:
                base[b"a"], base[b"b"], base[b"c"] = b"a text", value, honest
                self.assertEqual(base[b"b"], value)
            (data,) = self.files()
            found = reports(data, listed)
            self.assertEqual(any(it.is_finding for it in found), is_evil, found)

    @needs("module:tables")
    def test_pytables(self):
        import tables

        for value, is_evil in (([1, "text"], False), (print, True)):
            path = self.folder / "file.h5"
            with tables.open_file(str(path), "w") as file:
                row = file.create_vlarray(
                    file.root, "row", tables.ObjectAtom(), filters=tables.Filters(5)
                )
                row.append(value)
            self.check(path.read_bytes(), "HDF5", is_evil)
            with tables.open_file(str(path), "w") as file:
                file.root._v_attrs.kept = value
            with tables.open_file(str(path)) as file:
                self.assertEqual(file.root._v_attrs.kept, value)
            self.check(path.read_bytes(), "HDF5", is_evil)

    @needs("module:tables")
    def test_user_blocks(self):
        import tables

        path = self.folder / "file.h5"
        for size in (512, 1 << 16, 1 << 17, 1 << 20):
            for value, is_evil in (([1, "text"], False), (print, True)):
                with tables.open_file(str(path), "w", user_block_size=size) as file:
                    file.root._v_attrs.kept = value
                path.write_bytes(b"a text".ljust(size) + path.read_bytes()[size:])
                with tables.open_file(str(path)) as file:
                    self.assertEqual(file.root._v_attrs.kept, value)
                self.check(path.read_bytes(), "HDF5", is_evil)

    def test_schemas_of_arrow(self):
        """Arrow before version 14.0.1 loads the pickle of an extension type."""
        for value, is_evil in ((pickle.dumps([1], 4), False), (EVIL, True), (RUNS, True)):
            schema = bytes(40) + b"arrow.py_extension_type" + value + bytes(9)
            self.check(b"ARROW1\0\0" + schema, "Arrow", is_evil)
            parquet = b"PAR1\x15\x04\x18\x0cARROW:schema\x18\x90\x01" + base64.b64encode(schema)
            self.check(parquet + b"\0\x18\0\0\0PAR1", "Parquet", is_evil)

    def test_what_has_no_pickle_is_named(self):
        hdf5 = b"\x89HDF\r\n\x1a\n"
        for data, kind in (
            (self.sqlite("a text that\ncontains\nwords\n"), "SQLite"),
            (hdf5 + bytes(range(256)) * 99, "HDF5"),
            (b"PAR1" + bytes(99) + b"PAR1", "Parquet"),
            (bytes(512) + hdf5 + bytes(99), "HDF5"), (b"ARROW1\0\0" + bytes(99), "Arrow"),
        ):
            (found,) = reports(data)
            self.assertEqual((found.status, found.kind), ("no pickle", kind))
            said = "no value is itself a pickle" if kind == "SQLite" else "not read as its programs"
            self.assertIn(said, found.why)


if __name__ == "__main__":
    unittest.main()

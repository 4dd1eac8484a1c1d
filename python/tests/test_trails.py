"""`scan` on stores with pickles that begin with no PROTO, and import by texts that stand elsewhere.
"""

import datetime
import decimal
import os
import pathlib
import pickle
import shelve
import sqlite3
import struct
import sys
import tempfile
import unittest

import storklocker
import test_readings
from storklocker import AllowList
from storklocker.scanning.dangers import is_suspect, known, suspect_heads
from storklocker.scanning.known import HARMLESS
from test_readings import reports
from test_stores import shelf_modules

MODULE, NAME = b"\x8c\x02os", b"\x8c\x06getpid"
LONG = b"X" + struct.pack("<I", 99_999) + b"a" * 99_999 + b"0"
HIDDEN = {
    "memo": MODULE + b"\x94" + NAME + b"\x94h\0h\1\x93.",
    "memo of texts that are gone": MODULE + b"\x940" + NAME + b"\x940h\0h\1\x93.",
    "memo by number": MODULE + b"r\xff\xff\0\x000" + NAME + b"p7\n0j\xff\xff\0\0g7\n\x93.",
    "the name in front": NAME + b"\x940" + MODULE + b"h\0\x93.",
    "other memo entries in front": b"N\x94" * 300 + MODULE + b"\x94" + NAME + b"\x94j"
    + struct.pack("<I", 300) + b"j" + struct.pack("<I", 301) + b"\x93.",
    "things pushed and taken away": b"N0(1" + MODULE + b"K\x07N00(N1" + NAME + b"]0\x93.",
    "things taken away from below": b"NN" + MODULE + b"\x94" + NAME + b"\x940000h\0h\1\x93.",
    "far apart": MODULE + b"\x940" + LONG + NAME + b"\x940" + LONG + b"h\0h\1\x93.",
    "far from the beginning": LONG[:-1] + b"\x94" + MODULE + b"\x94" + NAME + b"\x94h\1h\2\x93.",
    "BUILD of nothing": MODULE + NAME + b"Nb\x93.",
    "APPENDS of nothing": MODULE + NAME + b"(e\x93.",
    "BINUNICODE": b"X\x02\0\0\0osN0X\x06\0\0\0getpidN0\x93.",
    "BINUNICODE8": b"\x8d\x02" + bytes(7) + b"osN0\x8d\x06" + bytes(7) + b"getpid\x93.",
    "UNICODE": b"Vos\nVgetpid\n\x93.",
    "UNICODE with escapes": b"V\\u006fs\nVget\\u0070id\n\x93.",
    "STRING": b"S'os'\nS\"getpid\"\n\x93.",
    "STRING with escapes": b"S'\\x6fs'\nS'get\\160id'\n\x93.",
    "SHORT_BINSTRING": b"U\x02osU\x06getpid\x93.",
    "BINSTRING": b"T\x02\0\0\0osT\x06\0\0\0getpid\x93.",
    "another kind of each": b"S'os'\nN0V\\u0067etpid\np0\n\x93.",
    "PROTO in the middle": MODULE + b"\x94" + NAME + b"\x94\x80\x04h\0h\1\x93.",
    "a pickle that is accepted by itself in the middle":
        MODULE + b"\x94" + NAME + b"\x94\x80\x04\x8c\x01a\x940h\0h\1\x93.",
    "a name with dots": b"\x8c\x04glob\x940\x80\x04\x8c\x09os.getpid\x940h\0h\1\x93.",
    "a module of Python 2": b"\x8c\x0b__builtin__\x940\x8c\x05print\x940h\0h\1\x93.",
}
"""Values that get `os.getpid` or `print` from a real reader."""
if test_readings.FINDS_UP_TO_NUL:
    HIDDEN["a module with a NUL"] = b"\x8c\x06os\0abcN0" + NAME + b"\x93."


MOST = {"dbm.ndbm": 1000, "dbm.sqlite3": 4000}
"""The most bytes that a module of dbm takes, or doesn't cut into pages."""
GDBM = b"\xce\x9aW\x13" + bytes(60)
RUN = (os.getpid, print)


class Trails(unittest.TestCase):
    def setUp(self):
        made = tempfile.TemporaryDirectory()
        self.addCleanup(made.cleanup)
        self.path = pathlib.Path(made.name, "store")

    def sqlite(self, *values):
        """A table of blobs, and what is read of each."""
        if self.path.exists():
            self.path.unlink()
        base = sqlite3.connect(str(self.path))
        base.execute("create table kept (value blob)")
        base.executemany("insert into kept values (?)", [(value,) for value in values])
        base.commit()
        read = [row[0] for row in base.execute("select value from kept")]
        base.close()
        return self.path.read_bytes(), read

    def check(self, data, is_evil, said):
        for allow in (AllowList([]), None):
            found = reports(data, allow)
            self.assertEqual(any(it.is_finding for it in found), is_evil, (said, found))
            self.assertLessEqual({it.kind for it in found}, {"SQLite", "GDBM"}, said)

    def test_blobs(self):
        for said, value in HIDDEN.items():
            for values in ([value], [pickle.dumps([1], 4), b"a text", value, pickle.dumps({})]):
                data, read = self.sqlite(*values)
                self.assertIn(pickle.loads(read[values.index(value)]), RUN, said)
                if len(value) < 4000:  # it isn't cut into pages
                    self.check(data, True, said)
                self.check(GDBM + b"".join(values) + bytes(99), True, said)

    def test_shelves(self):
        for name, module in shelf_modules().items():
            for said, value in HIDDEN.items():
                if len(value) > MOST.get(name, len(value)):
                    continue
                folder = tempfile.TemporaryDirectory(dir=self.path.parent)
                with shelve.Shelf(module.open(f"{folder.name}/shelf", "c")) as shelf:
                    shelf["first"], shelf.dict[b"key"] = [1, "text"], value
                with shelve.open(f"{folder.name}/shelf") as shelf:
                    self.assertIn(shelf["key"], RUN, said)
                read = [it.read_bytes() for it in pathlib.Path(folder.name).iterdir()]
                found = [it for data in read if data for it in reports(data)]
                self.assertTrue(any(it.is_finding for it in found), (name, said))
                folder.cleanup()

    def test_a_value_that_bytes_of_another_cover(self):
        begun, count = b"\x80\x04B", 0
        plain = b"cos\ngetpid\n."
        for hostile in (b"\x80\x02" + plain, plain, MODULE + b"\x94" + NAME + b"\x94\x93."):
            for _ in range(2):  # the second time with the length that the first has shown
                values = (b"N.", hostile, begun + struct.pack("<I", count))
                data, read = self.sqlite(*values)
                at = data.rindex(begun)
                count = data.rindex(b"N.") + 1 - (at + 7)
            self.assertIs(pickle.loads(read[1]), os.getpid)
            whole = storklocker.check(data[at:], AllowList([]))
            self.assertTrue(whole and whole.taken > count, hostile)
            self.check(data, True, hostile)

    def test_what_is_imported_is_named(self):
        for said in ("memo", "far apart", "things taken away from below"):
            (found,) = reports(GDBM + HIDDEN[said], None)
            self.assertIn("os.getpid", {it.name for it in found.findings}, said)

    def test_a_trail_ends_where_readers_stop(self):
        for between in (b".", b"\xff", b"Iz\n", b"X\xff\xff\xff\0", b"V no end of a line", b""):
            value = MODULE + b"\x94" + NAME + b"\x94" + between + b"h\0h\1\x93."
            is_evil = not between
            data, (read,) = self.sqlite(value)
            self.assertEqual(outcome(read) in RUN, is_evil, between)
            self.check(data, is_evil, between)

    def test_honest_values_in_parts(self):
        """SQLite cuts a long value into pages. The words in it are names of modules, too."""
        dates = {"day": datetime.date(2026, 1, 1), "n": decimal.Decimal(1)}
        rows = [{"os": "a", "system": it, "code": f"c{it}", "types": [it]} for it in range(999)]
        listed = AllowList([("datetime", "date"), ("decimal", "Decimal"), ("_codecs", "encode")])
        dated = [{**row, **dates} for row in rows]
        for value in (rows, [*rows, dates], [*rows, *dated]):
            for protocol in (2, 3, 4, 5):
                data, (read,) = self.sqlite(pickle.dumps(value, protocol))
                self.assertEqual(pickle.loads(read), value)
                found = reports(data, listed)
                self.assertFalse(any(it.is_finding for it in found), protocol)

    def test_heads(self):
        """The search knows the first words of all that is harmful."""
        heads = suspect_heads()
        self.assertLess(max(map(len, heads)), 32)
        for name, row in known().rows.items():
            module = name.rpartition(".")[0]
            if row.severity != HARMLESS and module:
                self.assertTrue(is_suspect(module), name)
                self.assertIn(module.partition(".")[0].encode(), heads)
        for text in ("posix", "numpy._core", "__builtin__", "os\0x", "__globals__", "a.__main__",
                     "x.__class__.y", "ctypes.util"):
            self.assertTrue(is_suspect(text), text)
        prose = "os. It is. " * 20
        version = "v1.2.3.4.5.6.7.8.9.0"
        for text in ("", "text", "date", "a.b", "collections.abc.x", "Os", version, prose):
            self.assertFalse(is_suspect(text), text)


def outcome(data):
    """What a real reader gets, or None."""
    try:
        return pickle.loads(data)
    except Exception:
        return None


if __name__ == "__main__":
    unittest.main()

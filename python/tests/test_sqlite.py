"""`scan` on SQLite's files: values in chains of pages, logs and journals, values of odd files."""

import base64
import colorsys
import datetime
import itertools
import pathlib
import pickle
import random
import shutil
import sqlite3
import struct
import tempfile
import time
import unittest
import zlib

from storklocker import AllowList
from storklocker.scanning.sqlite_pages import DATABASE, JOURNAL, LOGS
from test_readings import reports
from test_scan_costs import SECONDS

DAY = datetime.date(2026, 1, 1)
DAYS = AllowList([("datetime", "date")])
LONG = b"X" + struct.pack("<I", 9_999) + b"a" * 9_999 + b"0"
MODULE, NAME = b"\x8c\x08colorsys\x940", b"\x8c\x0argb_to_hls\x940"
CALL = b"h\0h\x01\x93(K\0K\0K\0tR."
SIZES = (512, 1024, 4096, 65536)
TABLES = (
    "create table kept (number integer primary key, value)",
    "create table kept (number integer, value); create index them on kept (value)",
    "create table kept (number integer primary key, value) without rowid",
)


class Case(unittest.TestCase):
    def setUp(self):
        made = tempfile.TemporaryDirectory()
        self.addCleanup(made.cleanup)
        self.folder = pathlib.Path(made.name)
        self.path = self.folder / "base"

    def base(self, values, size=4096, table=TABLES[0], *pragmas):
        """A database with these values, each read from it again."""
        if self.path.exists():
            self.path.unlink()
        base = sqlite3.connect(str(self.path))
        for pragma in (f"page_size = {size}", "synchronous = off", *pragmas):
            base.execute(f"pragma {pragma}")
        base.executescript(table)
        base.executemany("insert into kept values (?, ?)", enumerate(values))
        base.commit()
        read = [value for value, in base.execute("select value from kept order by number")]
        base.close()
        self.assertEqual(read, list(values))
        return self.path.read_bytes()

    def check(self, data, is_evil, said, allow=DAYS):
        found = reports(data, allow)
        self.assertEqual(any(it.is_finding for it in found), is_evil, (said, found[:4]))
        self.assertEqual({it.kind for it in found}, {"SQLite"})
        return found


class Values(Case):
    def test_texts_and_import_on_different_pages(self):
        for front in (b"", b"\x80\x04", b"N0"):
            value = front + MODULE + LONG + NAME + LONG + CALL
            self.assertEqual(pickle.loads(value), colorsys.rgb_to_hls(0, 0, 0))
            for size in SIZES:
                for table in TABLES:
                    data = self.base([b"text", value, 5], size, table)
                    found = self.check(data, True, (front, size, table))
                    named = {it.name for report in found for it in report.findings}
                    self.assertIn("colorsys.rgb_to_hls", named)

    def test_names_that_nobody_has_judged(self):
        for value in (
            MODULE + NAME + CALL, b"(Vcolorsys\nVrgb_to_hls\n\x93(I0\nI0\nI0\ntR.",
            b"ccolorsys\nrgb_to_hls\n(I0\nI0\nI0\ntR.", b"\x80\x02ccolorsys\nrgb_to_hls\n.",
        ):
            pickle.loads(value)
            for others in ((), (pickle.dumps([1], 4), "text\nwith lines", bytes(99))):
                self.check(self.base([*others, value, *others]), True, value)

    def test_what_bytes_of_an_accepted_pickle_cover(self):
        value, count = b"\x80\x02ccolorsys\nrgb_to_hls\n.", 0
        for _ in range(2):  # the second time with the length that the first has shown
            cover = b"\x80\x04B" + struct.pack("<I", count)
            data = self.base([b"N.", value, cover])
            at = data.rindex(cover)
            count = data.rindex(b"N.") + 1 - (at + len(cover))
        self.assertEqual(pickle.loads(data[at:]), data[at + 7 : at + 7 + count])
        self.check(data, True, "covered")

    def test_texts_in_two_bytes_a_character(self):
        value = "(Vcolorsys\nVrgb_to_hls\n(I0\nI0\nI0\n."
        hostile = "ccolorsys\nrgb_to_hls\n(I0\nI0\nI0\ntR."
        self.assertEqual(pickle.loads(hostile.encode()), colorsys.rgb_to_hls(0, 0, 0))
        for encoding in ("UTF-8", "UTF-16le", "UTF-16be"):
            for text, is_evil in ((value, False), (hostile, True), ("cats\ndogs\n.", True)):
                data = self.base([text], 512, TABLES[0], f"encoding = '{encoding}'")
                self.check(data, is_evil, (encoding, text))

    def test_deep_trees(self):
        values = [b"v" * 300] * 3_000
        values[1_234] = MODULE + NAME + CALL
        self.check(self.base(values, 512), True, "deep")
        self.check(self.base([b"v" * 300] * 3_000, 512), False, "deep")

    def test_honest_values(self):
        words = [f"word {number}" for number in range(999)]
        values = [[DAY, *words], [*words, DAY], {"day": DAY, "all": words}, words, "cats\ndogs\n"]
        for protocol in (2, 4, 5):
            held = [pickle.dumps(value, protocol) for value in values]
            listed = DAYS | AllowList([("_codecs", "encode")])
            for size in SIZES:
                for table in TABLES:
                    self.check(self.base([*held, "cats\ndogs\n"], size, table), False, size, listed)
            self.check(self.base(held), False, protocol, None)

    def test_honest_values_that_were_deleted(self):
        value = pickle.dumps([DAY, *map(str, range(9_999))], 4)
        self.base([value, b"text"], 4096, TABLES[0], "secure_delete = off")
        base = sqlite3.connect(str(self.path))
        base.execute("pragma secure_delete = off")
        base.execute("delete from kept where number = 0")
        base.commit()
        base.close()
        data = self.path.read_bytes()
        self.assertIn(value[:100], data)
        self.check(data, False, "deleted")
        self.check(data, True, "deleted", AllowList([]))
        self.check(data, False, "deleted", None)


class Logs(Case):
    """What SQLite puts into the database when it opens it."""

    def changed(self, mode, values):
        """Copies of the files of a database that holds values, while these are not in it."""
        self.base([b"text"], 4096, TABLES[0], f"journal_mode = {mode}")
        base = sqlite3.connect(str(self.path), isolation_level=None)
        base.execute("pragma wal_autocheckpoint = 0")
        base.execute("pragma cache_size = 2")
        base.execute("begin")
        base.executemany("insert into kept values (?, ?)", enumerate(values, 9))
        base.execute("commit" if mode == "wal" else "update kept set value = 'other'")
        for path in self.folder.glob("base*"):
            shutil.copy(str(path), str(self.folder / path.name.replace("base", "copy")))
        base.close()

    def test_log(self):
        for value in (MODULE + NAME + CALL, MODULE + LONG + NAME + LONG + CALL, b"N" + CALL):
            self.changed("wal", [value])
            log = (self.folder / "copy-wal").read_bytes()
            self.assertNotIn(CALL, (self.folder / "copy").read_bytes())
            self.check(log, value[:1] != b"N", value)
            base = sqlite3.connect(str(self.folder / "copy"))
            read = base.execute("select value from kept where number = 9").fetchone()
            base.close()
            self.assertEqual(read, (value,))

    def test_journal(self):
        """A transaction that was cut off is taken back from the journal."""
        value = MODULE + LONG + NAME + LONG + CALL
        self.base([value])
        base = sqlite3.connect(str(self.path), isolation_level=None)
        base.execute("pragma cache_size = 1")
        base.execute("begin")
        base.execute("update kept set value = zeroblob(30000)")
        others = [(number, bytes(9_999)) for number in range(9, 99)]
        base.executemany("insert into kept values (?, ?)", others)
        journal = (self.folder / "base-journal").read_bytes()
        self.check(journal, True, "journal")
        base.execute("rollback")
        self.assertEqual(base.execute("select value from kept").fetchone(), (value,))
        base.close()


class Broken(Case):
    def test_any_value_that_sqlite_reads_is_found(self):
        chosen = random.Random(5)
        value, seen = MODULE + LONG + NAME + LONG + CALL, 0
        for number in range(300):
            values = [b"v" * chosen.randrange(900) for _ in range(9)] + [value]
            data = bytearray(self.base(values, chosen.choice(SIZES), chosen.choice(TABLES)))
            for _ in range(chosen.choice((1, 2))):
                at = chosen.choice((chosen.randrange(16, 100), chosen.randrange(100, len(data))))
                data[at] = chosen.randrange(256)
            self.path.write_bytes(data)
            if value in self.read():
                seen += 1
                found = reports(bytes(data))
                self.assertTrue(any(it.is_finding for it in found), number)
        self.assertGreater(seen, 100)

    def read(self):
        """The values that SQLite reads, up to its first error."""
        found = []
        base = sqlite3.connect(f"file:{self.path}?immutable=1", uri=True)
        base.text_factory = bytes
        try:
            for value, in base.execute("select value from kept"):
                found.append(value)
        except sqlite3.Error:
            pass
        finally:
            base.close()
        return found

    def test_chains_without_an_end_and_cells_that_share_one(self):
        data = bytearray(self.base([b"v" * 900_000, *([b"w" * 400] * 99)]))
        at = data.index(b"v" * 400)
        (page,) = [it for it in range(0, len(data), 4096) if it <= at < it + 4096]
        chain = struct.unpack_from(">I", data, page + 4092)[0]
        for start in range((chain - 1) * 4096, len(data), 4096):
            data[start : start + 4] = struct.pack(">I", chain)
        data[page : page + 8] = struct.pack(">BHHHB", 13, 0, 680, 4000, 0)
        for cell in range(680):
            struct.pack_into(">H", data, page + 8 + 2 * cell, 2_000 + cell)
        for start in range(2_000, 4_000):
            data[page + start] = 0x83
        began = time.process_time()
        found = reports(bytes(data))
        self.assertLess(time.process_time() - began, SECONDS)
        self.assertLess(len(found), 3)

    def test_headers_of_nothing(self):
        for length in (16, 99, 100, 511, 512):
            for front in (DATABASE, JOURNAL, *LOGS):
                for filled in (b"\0", b"\xff", b"\x05", b"\x02"):
                    self.check(front.ljust(length, filled), False, (front, filled))


class Many(Case):
    """Values of a page that are told by one call."""

    PACKED = {
        "as it is": (bytes, bytes),
        "Base64": (lambda data: base64.b64encode(data).decode(), base64.b64decode),
        "zlib": (zlib.compress, zlib.decompress),
    }

    def values(self, number):
        """Honest pickles."""
        return [pickle.dumps([DAY, it % 9, f"name {it}"], 3 + it % 3) for it in range(number)]

    def test_honest_ones_are_told_together(self):
        for (name, (pack, unpack)), table in itertools.product(self.PACKED.items(), TABLES):
            values = self.values(800)
            packed = [pack(value) for value in values]
            self.assertEqual([unpack(value) for value in packed], values)
            size = 512 if table == TABLES[0] else 4096
            found = reports(self.base(packed, size, table), DAYS)
            self.assertEqual({it.status for it in found}, {"accepted"}, (name, table, size))
            # (some are told again, of what pages have left of them)
            self.assertTrue(any("more values like these" in it.why for it in found), name)
            self.assertLess(len(found), 200)

    def test_a_hostile_one_among_them(self):
        payload = b"\x80\4" + MODULE + NAME + CALL
        self.assertEqual(pickle.loads(payload), colorsys.rgb_to_hls(0, 0, 0))
        pairs = (
            (payload,),
            (b"\x80\4N.\x80\4C%c" % len(payload[:-1]), payload),  # one row, but other values
            (payload + b"N.",),
            (payload[:-1] + b"N.",),
        )
        for hostile in pairs:
            for (name, (pack, _)), place in itertools.product(self.PACKED.items(), (70, 390)):
                values = [pack(value) for value in self.values(400)]
                values[place:place] = map(pack, hostile)
                found = reports(self.base(values), DAYS)
                self.assertIn("refused", {it.status for it in found}, (name, place, hostile))


if __name__ == "__main__":
    unittest.main()

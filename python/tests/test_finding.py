"""What the module finds in the bytes of stores, beside `re`, slices and SQLite; and what a scan
tells of generated stores, beside what it tells of each value by itself.
"""

import datetime
import pathlib
import pickle
import random
import re
import sqlite3
import tempfile
import unittest
from unittest import mock

from common import needs
from storklocker import AllowList
from storklocker._storklocker import begun, blanked, cells, joined, runs, walked, whole, wholes
from storklocker.scanning.patterns import ANY, LETTER, NUL, class_of, fronts_of, masks_of
from storklocker.scanning.values import Values
from test_batches import EVIL, STORES, reports

ALPHABET = b"\x80\x04X\0\0ab+=.\n'\xffN"
GROUPS = (
    [(b"\x80", bytes(range(6)))],
    [(b"X", ANY, ANY, bytes(range(0x40)), LETTER), (b"\xff",) * 3 + (NUL,)],
    [fronts_of(b"ab"), (b"a", ANY)],
    [(b".",)],
)
LETTERS = bytes(byte in b"ab+" for byte in range(256))
QUIET = bytes(3 * (byte not in b"\n\x80\x93") for byte in range(256))
NOON = datetime.datetime(2026, 1, 1, 12)


def drawn(chosen, most=200):
    """Bytes, and parts of them in their order."""
    data = bytes(chosen.choices(ALPHABET, k=chosen.randrange(most)))
    places = sorted(chosen.choices(range(len(data) + 1), k=2 * chosen.randrange(5)))
    return data, places[::2], places[1::2]


def outside(data, begins, ends):
    return [at for at in range(len(data))
            if not any(begin <= at < end for begin, end in zip(begins, ends))]


class Bytes(unittest.TestCase):
    def test_patterns_are_those_of_re(self):
        masks = masks_of(*GROUPS)
        patterns = [re.compile(b"|".join(b"".join(map(class_of, it)) for it in those), re.DOTALL)
                    for those in GROUPS]
        chosen = random.Random(1)
        for _ in range(3_000):
            data, begins, ends = drawn(chosen)
            free = outside(data, begins, ends)
            wanted = tuple([at for at in free if it.match(data, at)] for it in patterns)
            self.assertEqual(begun(data, masks, begins, ends), wanted)

    def test_runs_are_those_of_re(self):
        chosen = random.Random(2)
        for _ in range(3_000):
            data, begins, ends = drawn(chosen)
            for least in (1, 2, 5):
                wanted, at = [], 0
                for begin, end in zip([*begins, len(data)], [*ends, len(data)]):
                    found = re.finditer(rb"[ab+]{%d,}" % least, data[at:begin])
                    wanted += [(at + it.start(), at + it.end()) for it in found]
                    at = end
                got = runs(data, LETTERS, least, begins, ends)
                self.assertEqual([*zip(*got)], wanted)

    def test_parts(self):
        chosen = random.Random(3)
        for _ in range(2_000):
            data, begins, ends = drawn(chosen)
            parts = [data[begin:end] for begin, end in zip(begins, ends)]
            self.assertEqual(joined(data, begins, ends), b"".join(parts))
            odd = (number for number, it in enumerate(parts) if not is_whole(it))
            count = next(odd, len(parts))
            self.assertEqual(whole(data, begins, ends), count)
            left, base = outside(data, begins, ends), chosen.randrange(9)
            wanted = bytes(byte if at in left else 0 for at, byte in enumerate(data))
            moved = [[at + base for at in its] for its in (begins, ends)]
            self.assertEqual(blanked(data, base, *moved), wanted)
            self.assertEqual(joined(data, [-9, 5], [len(data) + 9, 2]), data)

    def test_whole_values(self):
        good = pickle.dumps([1, "text"], 4)
        data = b"k" + good + good[:-3] + b"\x80\x04K\xff" + good + b"\x80\x04K"
        places = [it.start() for it in re.finditer(rb"\x80\x04", data)]
        begins, ends = wholes(data, places, 0, 1 << 12, 1 << 12)
        self.assertEqual((begins[0], ends[0]), (1, 1 + len(good)))
        for begin, end in zip(begins, ends):
            self.assertTrue(is_whole(data[begin:end]))
        self.assertEqual(wholes(data, places, len(data), 1 << 12, 1 << 12), ([], []))

    def test_what_they_do_not_take(self):
        page, wrong = bytes(512), (-1, 2**70, None)
        for given in wrong:
            with self.subTest(given=given):
                for call in (
                    lambda: joined(b"ab", [given], [1]),
                    lambda: blanked(b"ab", 0, [0], [given]),
                    lambda: begun(b"ab", masks_of(*GROUPS), [given], [1]),
                    lambda: runs(b"ab", LETTERS, 1, [given], [1]),
                    lambda: whole(b"ab", [given], [1]),
                    lambda: wholes(b"ab", [given], 0, 9, 9),
                ):
                    try:
                        call()
                    except (TypeError, OverflowError):
                        continue
                    self.assertEqual(given, -1)
                with self.assertRaises((ValueError, TypeError, OverflowError)):
                    cells(page, QUIET, 0 if given == -1 else 8, given, 9, False)
        for given in ((513, 0), (0, 257), (512, 1), (8, 253)):
            with self.assertRaises(ValueError):
                cells(page, QUIET, *given, 99, True)
        for masks in (b"", b"short"):
            self.assertEqual(begun(b"ab", masks, [], []), ([], [], [], []))
        self.assertEqual(runs(b"ab", b"short", 1, [], []), ([], []))
        self.assertEqual(cells(b"", QUIET, 0, 0, 9, True), ([], [], []))


def is_whole(data):
    """Whether instructions end with the only STOP; `test_walk` compares that with `pickletools`."""
    return walked(data, 0) == (len(data), True)


class Pages(unittest.TestCase):
    def test_cells_are_those_of_sqlite(self):
        values = [pickle.dumps([number], 4) for number in range(9)]
        rows = [("k", values[0]), ("short", values[1]), ("a long text " * 3, b"\x80\x04.")]
        rows.append((5, b"\x80\x09.\n."))
        with tempfile.TemporaryDirectory() as folder:
            path = pathlib.Path(folder, "base")
            base = sqlite3.connect(str(path))
            base.execute("create table kept (key, value)")
            base.executemany("insert into kept values (?, ?)", rows)
            base.commit()
            base.close()
            page = path.read_bytes()[-4096:]
        count = int.from_bytes(page[3:5], "big")
        self.assertEqual((page[0], count), (13, len(rows)))
        begins, ends, left = cells(page, QUIET, 8, count, 4096 - 290, True)
        self.assertEqual([page[at:end] for at, end in zip(begins, ends)], values[:2])
        others = [int.from_bytes(page[8 + 2 * k : 10 + 2 * k], "big") for k in (2, 3)]
        self.assertEqual(left, others)
        self.assertEqual(cells(page, QUIET, 8, count, 1, True)[0], [])  # (no record is short)

    def test_any_page(self):
        """No place lies outside, whatever a page has."""
        chosen = random.Random(4)
        for _ in range(5_000):
            page = bytes(chosen.choices(b"\0\1\4\x05\x0c\x10\x18\x7f\x80\x81\xff\x80\x04.", k=512))
            at = chosen.randrange(400)
            count, most = chosen.randrange(56), chosen.randrange(600)
            its = cells(page, QUIET, at, count, most, chosen.random() < 0.5)
            for begin, end in zip(*its[:2]):
                self.assertRegex(page[begin:end], rb"(?s)\A\x80[\2-\5]..")
            self.assertTrue(all(0 <= it < 512 for it in its[2]))


def value(chosen):
    """A value as stores have them, or one that somebody made."""
    good = pickle.dumps([chosen.randrange(1 << 30), NOON, "x" * chosen.randrange(300)], 4)
    plain = pickle.dumps({"k": "y" * chosen.randrange(200), "n": [1] * chosen.randrange(9)}, 4)
    odd = chosen.choice((
        good[: chosen.randrange(len(good))],
        good + plain,
        pickle.dumps([good, plain], 4),
        good[:-1] + EVIL,
        pickle.dumps(EVIL, 4),
        b"\x80\x04B" + chosen.randrange(900).to_bytes(4, "little") + EVIL + b".",
        EVIL,
        EVIL[2:],
        b"x\x9c" + good,
        b"text (dp0\nand more\n",
        pickle.dumps("cos\nsystem\n", 4),
        bytes(chosen.randrange(50)),
        b"\x80\x04\x8c\x02os\x94\x8c\x06system\x94\x93\x94.",
    ))
    return odd if chosen.random() < 0.05 else chosen.choice((good, plain))


class Generated(unittest.TestCase):
    @needs("module:sqlite3")
    def test_what_is_told_is_the_same(self):
        """The control looks at each value by itself."""
        chosen, listed = random.Random(5), AllowList([datetime.datetime])
        for name, make in STORES.items():
            for turn in range(3):
                values = [value(chosen) for _ in range(chosen.randrange(100, 500))]
                with self.subTest(store=name, turn=turn), tempfile.TemporaryDirectory() as folder:
                    try:
                        make(pathlib.Path(folder, "store"), values)
                    except ImportError as error:
                        self.skipTest(str(error))
                    for allow in (listed, None):
                        told = reports(pathlib.Path(folder), allow)
                        with mock.patch.object(Values, "quiet_of", lambda *_: (0, 0)):
                            self.assertEqual(told, reports(pathlib.Path(folder), allow))
                        self.assertTrue(any(it["findings"] for it in told) or EVIL not in values)


if __name__ == "__main__":
    unittest.main()

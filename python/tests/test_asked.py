"""The readings that `scan` doesn't ask about a file find nothing in it."""

import bz2
import gzip
import io
import lzma
import pickle
import random
import struct
import unittest
import zlib

from storklocker.scanning.all_readings import READINGS, asked
from storklocker.scanning.budget import Budget
from storklocker.scanning.judging import Question, reports_of
from storklocker.scanning.marks import is_plain
from storklocker.scanning.names import NOTHING
from storklocker.scanning.readings import Place
from storklocker.scanning.source import BLOCK, in_memory
from test_readings import EVIL, HDF5, header, npy, tar
from test_scanning import zipped

TIMES = 3000
CHECKSUMS = (
    *(lambda total, end=end: b"%o%b" % (total, end) for end in (b"", b" ", b"\0", b"\0x", b"_")),
    *(lambda total, front=front: front + b"%o" % total for front in (b"  ", b"\t", b"+", b"0o")),
    *(lambda total, front=front: front + b"%o" % total for front in (b"\x1f", b"0_", b"\x0b00")),
    lambda total: b"\x80" + total.to_bytes(7, "big"),
    lambda total: b"%08o" % total,
)
"""How a tar file may have its checksum, as some `tarfile` reads it."""


def place_of(data, path="file"):
    source = in_memory(io.BytesIO(data))
    # (the time of a large file, since a busy machine may take more than that of a small one)
    return Place(path, source, Budget(source.size + (1 << 26)), asked)


def said(reading, place):
    """What a reading yields, and whether its reader takes the file."""
    found, reading = [], reading(place)
    while True:
        try:
            found.append(next(reading))
        except StopIteration as end:
            return found, end.value


def files():
    """Files of all kinds."""
    yield from (b"", b"\0" * 2000, b"a text\n" * 100, pickle.dumps(list(range(300))), EVIL)
    archive = zipped(("a", EVIL))
    yield from (archive, zipped(), EVIL + archive, archive[:-30], b"PK\3\4" + bytes(30))
    yield from (npy("'<i4'", b"abcd"), b"N." + npy("'|O'", EVIL), EVIL + npy("'|O'", EVIL))
    yield from (gzip.compress(EVIL), bz2.compress(EVIL), zlib.compress(EVIL), lzma.compress(EVIL))
    yield from (b"ZF0x14" + b" " * 15 + zlib.compress(EVIL), bytes(4) + EVIL, b"abcd" + EVIL)
    yield from (zlib.compress(EVIL, level) for level in range(10))
    yield from (lzma.compress(EVIL * times, lzma.FORMAT_ALONE) for times in (1, 90))
    yield from (tar(header(b"a", 4, number=number), EVIL) for number in CHECKSUMS)
    yield from (bytes(512 * k) + tar(header(b"a", 4), EVIL) for k in range(3))
    yield from (b"\x80" + tar(header(b"a", 4), EVIL)[1:], tar(header(b"\x80\2", 4), EVIL))
    yield from (b"\0" * at + HDF5 + EVIL * 30 for at in (0, 8, 512, 1024, 2048, BLOCK))
    yield from (b"SQLite format 3\0" + bytes(99), b"\x37\x7f\x06\x82" + bytes(40), b"PAR1" + EVIL)
    yield from (b"7z\xbc\xaf\x27\x1c", b"\x28\xb5\x2f\xfd", b"\x04\x22\x4d\x18")
    yield from (b"\x51\x2a\x4d\x18", b"LZIP\x01", b"Rar!\x1a\x07", b"\x02\x21\x4c\x18")
    yield from (b"ARROW1" + EVIL, b"FEA1" + EVIL, b"\xd9\xd5\x05\xf9\x20\xa1\x63\xd7" + bytes(99))
    for order in "<>":
        yield from (bytes(12) + struct.pack(f"{order}I", it) + EVIL for it in (0x53162, 0x61561))
        yield from (struct.pack(f"{order}I", it) + EVIL for it in (0x13579ACE, 0x13579AD0))
    yield b"\x80\x04" + bytes(14) + b"\xde\xc0\xef\xbe" + EVIL
    yield from (b"FS21" + EVIL, b"SEQ\6" + EVIL, b"\x82\xa2nd\xc3" + EVIL)
    yield len(pickle.dumps(1)).to_bytes(4, "big") + pickle.dumps(1)


class Asked(unittest.TestCase):
    def assert_others_find_nothing(self, data, path="file"):
        names = {name for name, _ in asked(path, place_of(data).source)}
        for name, reading in READINGS.items():
            if name not in names:
                self.assertEqual(said(reading, place_of(data, path)), ([], False), (name, data))

    def test_files_of_all_kinds(self):
        for data in files():
            self.assert_others_find_nothing(data)
            for path in ("a.dat", "a.DISTCP", "b/.metadata"):
                self.assert_others_find_nothing(data, path)

    def test_each_kind_is_asked(self):
        found = set()
        for data in files():
            names = {name for name, _ in asked("file", place_of(data).source)}
            found |= {it for it in names if said(READINGS[it], place_of(data)) != ([], False)}
        self.assertEqual(set(READINGS) - found, {"dbm.dumb", "distcp"})

    def test_changed_files(self):
        chosen, kinds = random.Random(1), list(files())
        for _ in range(TIMES):
            data = bytearray(chosen.choice(kinds)[: chosen.choice((20, 600, 3000))])
            for _ in range(chosen.randrange(3) if data else 0):
                data[chosen.randrange(min(len(data), 600))] = chosen.randrange(256)
            front = bytes((0x80, chosen.randrange(6))) if chosen.random() < 0.3 else b""
            self.assert_others_find_nothing(front + bytes(data))

    def test_nothing_is_no_pickle(self):
        for data in (npy("'|O'", b""), npy("'<i4'", b"abcd") + npy("'|O'", b"")):
            found = list(reports_of("file", io.BytesIO(data), Question(NOTHING)))
            self.assertEqual([it.status for it in found], ["refused"], found)

    def test_a_plain_file_is_one_for_a_single_reader(self):
        for data in files():
            for path in ("file", "a.dat", "a.DISTCP", "b/.metadata"):
                names = [name for name, _ in asked(path, place_of(data).source)]
                if is_plain(path, data):
                    self.assertEqual(names, ["pickle"], (path, data[:99]))
        self.assertTrue(is_plain("file", pickle.dumps(["a text"] * 99, 2)))

    def test_few_are_asked_about_a_pickle(self):
        source = place_of(pickle.dumps(["a text"] * 99, 2)).source
        names = [name for name, _ in asked("file", source)]
        self.assertEqual(names, ["pickle"])

    def test_a_checksum_that_is_none_is_not_a_tar_file(self):
        data = b"\x80\4" + b"N" * 146 + b"\0" + b"N" * 400 + b"."
        self.assertNotIn("tar", dict(asked("file", place_of(data).source)))


if __name__ == "__main__":
    unittest.main()

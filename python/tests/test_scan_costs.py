"""What `scan` takes for a file that is made to cost much."""

import bz2
import gzip
import io
import json
import lzma
import pathlib
import struct
import subprocess
import sys
import tempfile
import time
import unittest
import zlib
from unittest import mock

import storklocker
from common import needs
from storklocker import AllowList, check_row
from storklocker.scanning import dangers, rows
from storklocker.scanning.judging import Question, reports_of
from test_readings import HDF5, header, npy, tar, with_record

DEFLATE = b"\x0b\0\x18\0\0\0\0\0\1\1\0\0\0\0\0\0\1\0\0\0\1\0\1\0\6\0\0\0\0\0\0\0"
PACKED = HDF5 + DEFLATE
"""The front of a file of HDF5, and a message of a header that says that chunks are packed."""
SECONDS = 20
"""The most processor time for a file of at most a megabyte: ten times what a quiet machine takes,
so that a slow one does, and what has no bound doesn't.
"""


def cost_of(data):
    """The processor seconds, megabytes and bytes of JSON that a file costs in a fresh process, of
    three tries the cheapest: the machine may be busy. (The peak of `getrusage` is at least that of
    the process that started it.)
    """
    code = (
        "import io, json, sys, time\n"
        "from storklocker.scanning.condensing import condensed\n"
        "from storklocker.scanning.judging import Question, reports_of\n"
        "data = open(sys.argv[1], 'rb')\n"
        "began = time.process_time()\n"
        "found = [it.as_dict() for it in condensed(reports_of('x', data, Question()))]\n"
        "used = time.process_time() - began\n"
        "lines = open('/proc/self/status').read().splitlines()\n"
        "peak = next(int(line.split()[1]) // 1024 for line in lines if line.startswith('VmHWM'))\n"
        "print(json.dumps([used, peak, len(json.dumps(found))]))\n"
    )
    package = str(pathlib.Path(storklocker.__file__).parent.parent)
    best = None
    with tempfile.TemporaryDirectory() as folder:
        path = pathlib.Path(folder) / "file"
        path.write_bytes(data)
        for _ in range(3):
            words = [sys.executable, "-c", code, str(path)]
            ran = subprocess.run(
                words, env={"PYTHONPATH": package}, stdout=subprocess.PIPE, check=True
            )
            found = json.loads(ran.stdout)
            best = found if best is None or found < best else best
            if best[0] < SECONDS / 2:
                break
            time.sleep(0.5)
    return best


class Cost(unittest.TestCase):
    @needs("/proc/self/status")
    def test_what_a_file_may_cost(self):
        long = b"X" + struct.pack("<I", 500_000) + b"m" * 500_000 + b"q\x000"
        names = b"".join(b"h\0X\x03\0\0\0%03d\x930" % number for number in range(500))
        globals_ = b"".join(b"cm%d\nx\n0" % number for number in range(80_000))
        ends = b"PK\x03\x04" + b"PK\x05\x06" * 200_000
        made = {
            "names": b"\x80\x02" + long + names + b"N.", "rows": b"N." * 500_000,
            "bomb": gzip.compress(b"N." * (30 << 20)), "globals": b"\x80\x02" + globals_ + b"\xff",
            "ends": ends, "texts": b"Va\n" * 300_000,
            "marks": b"\x80\x04" + b"(" * 900_000 + b"\xff",
            "line": gzip.compress(b"I" + b"1" * (60 << 20)), "xz": lzma.compress(bytes(99 << 20)),
            "arrays": npy("'<i8'", b"", 1, "(0,)") * 9000, "bz2": bz2.compress(bytes(200 << 20)),
            "digits": with_record(b"1" * 400_000),
            "no records": with_record(b"2 " * 200_000 + b"=").replace(b" comment=", b"2 2 2 2 2"),
            "words": HDF5 + (b"c" * 99 + b"\n") * 10_000, "lines": HDF5 + b"V" * 1_000_000,
            "modules": HDF5 + b"\x8c\x02os" * 250_000, "tails": HDF5 + b"\x8c\x02osV" * 190_000,
            "imports": HDF5 + b"\x8c\x02osN0\x93" * 140_000, "NULs": HDF5 + b"cos\0" * 250_000,
            "pairs": HDF5 + b"ca\nb\n" * 200_000,
            "streams": PACKED + b"\x78\x9c" * 500_000,
            "empty": PACKED + zlib.compress(b"") * 120_000,
            "chunk": PACKED + zlib.compress(bytes(range(256)) * 400_000, 9),
            "endless": tar(header(b"a", -512), b"") * 2,
            "memo": b"".join(
                b"\x80\x04ca\nb\nr\0\0\x0f\0J%b\x86." % struct.pack("<I", number)
                for number in range(48_000)
            ),
        }
        for name, data in made.items():
            self.assertLess(len(data), 1_100_000, name)
            seconds, peak, size = cost_of(data)
            self.assertLess(seconds, SECONDS, name)
            self.assertLess(peak, 256, name)
            self.assertLess(size, 1_000_000, name)


class Steps(unittest.TestCase):
    """What is done once for a file, and not for each of its pickles or names."""

    def calls(self, module, name, data, allow=None):
        """How often a scan of these bytes calls a function of a module, and its reports."""
        seen, real = [], getattr(module, name)
        with mock.patch.object(module, name, lambda *given: seen.append(given) or real(*given)):
            found = list(reports_of("x", io.BytesIO(data), Question(allow)))
        return len(seen), found

    def test_modules_are_found_in_lists_of_folders(self):
        data = b"".join(b"cm%d\nx\n0" % number for number in range(9_000)) + b"\xff"
        dangers.is_found_here.cache_clear()
        calls, _ = self.calls(dangers.PathFinder, "find_spec", data)
        self.assertLess(calls, 10)
        dangers.is_found_here.cache_clear()
        with mock.patch.object(dangers, "_packages_in", lambda path: None):  # the control
            calls, _ = self.calls(dangers.PathFinder, "find_spec", data)
        self.assertGreaterEqual(calls, 9_000)

    def test_a_row_with_another_end(self):
        """As far as nothing is new it is taken by one call, also if that doesn't get to its end."""
        for end in (b"\xff", b"(", b"cos\nsystem\n.", b"N.(", b"\x80\x04cm\nx\n." + b"N." * 9_000):
            data = b"\x80\x04N." * 120_000 + end
            calls, found = self.calls(rows, "imports_within", data)
            self.assertLess(calls, 9_000)
            with mock.patch.object(rows, "_ONE_BY_ONE", 1 << 40):
                few = b"\x80\x04N." * 3_000 + end
                calls, others = self.calls(rows, "imports_within", few)
            self.assertGreaterEqual(calls, 3_000)  # the control
            found, others = ([(it.status, it.imports) for it in those] for those in (found, others))
            self.assertEqual(found, others)

    def test_a_long_row_fills_the_memo_of_one_unpickler(self):
        """It has more entries than a guard permits: no other Unpickler stops there."""
        listed = AllowList([("datetime", "datetime")])
        data = (b"\x80\x04cdatetime\ndatetime\n" + b"\x94" * 11 + b".") * 100_000
        (report,) = reports_of("x", io.BytesIO(data), Question(listed))
        self.assertEqual(report.status, "accepted", report.why)
        self.assertFalse(check_row(data, listed, one_unpickler=True))


if __name__ == "__main__":
    unittest.main()

"""`scan` on zip files inside one another, whose directories repeat their members."""

import io
import struct
import unittest
import unittest.mock
import zipfile
import zlib

from common import needs
from storklocker.scanning import budget
from test_readings import EVIL, reports
from test_scan_costs import SECONDS, cost_of
from test_scanning import zipped

NAME = b"a"


def repeating(data, count):
    """A zip file whose directory has its one member many times, each time a byte longer."""
    content = data + bytes(count)
    front = struct.pack("<4s5H3L2H", b"PK\3\4", 20, 0, 0, 0, 0, 0, len(data), len(data), 1, 0)
    directory = b"".join(
        struct.pack(
            "<4s4B4H3L5H2L", b"PK\1\2", 20, 3, 20, 0, 0, 0, 0, 0,
            zlib.crc32(content[:size]), size, size, 1, 0, 0, 0, 0, 0, 0,
        ) + NAME
        for size in range(len(data), len(data) + count)
    )
    at = len(front) + 1 + len(content)
    end = struct.pack("<4s4H2LH", b"PK\5\6", 0, 0, count, count, len(directory), at, 0)
    return front + NAME + content + directory + end


def nested(data, depth, count):
    for _ in range(depth):
        data = repeating(data, count)
    return data


def members_of(data):
    """The number of members that are got to, inside one another, by the directories that `zipfile`
    reads. (It says of some, since 2024, that they overlap.)
    """
    if not zipfile.is_zipfile(io.BytesIO(data)):
        return 0
    with zipfile.ZipFile(io.BytesIO(data)) as archive:
        starts = ((it.header_offset + len(it.FileHeader()), it) for it in archive.infolist())
        return sum(1 + members_of(data[at : at + it.compress_size]) for at, it in starts)


def scanned(data):
    """The reports, and how many members were counted."""
    spend = budget.Budget.spend_member
    with unittest.mock.patch.object(budget.Budget, "spend_member", autospec=True) as counted:
        counted.side_effect = spend
        return reports(data), counted.call_count


class NestedZips(unittest.TestCase):
    def test_each_member_is_counted_each_time(self):
        for depth, members in ((1, 3), (2, 3 + 9), (3, 3 + 9 + 27)):
            data = nested(EVIL, depth, 3)
            self.assertEqual(members_of(data), members)
            found, counted = scanned(data)
            self.assertGreaterEqual(counted, members)
            self.assertIn("refused", [it.status for it in found])

    def test_they_are_not_read_without_end(self):
        data = nested(EVIL, 4, 30)
        self.assertGreater(members_of(nested(EVIL, 2, 30)), 900)  # and 900 times as many here
        with unittest.mock.patch.object(budget, "MEMBERS", 500):
            found, counted = scanned(data)
        self.assertEqual(counted, 501)
        self.assertIn("more than 500 members", found[-1].why)

    def test_a_zip_file_in_another_is_read_once(self):
        data = zipped(("a", b"N."), ("b", b"K\1."))
        for depth in range(1, 4):
            data = zipped(("in.zip", data), ("c", b"N."))
            found, counted = scanned(data)
            self.assertEqual(counted, members_of(data))
            self.assertFalse(any(it.is_finding for it in found))

    @needs("/proc/self/status")
    def test_what_they_cost(self):
        data = nested(EVIL, 3, 5000)
        self.assertLess(len(data), 1_100_000)
        seconds, peak, size = cost_of(data)
        self.assertLess(seconds, SECONDS)
        self.assertLess(peak, 256)
        self.assertLess(size, 1_000_000)


if __name__ == "__main__":
    unittest.main()

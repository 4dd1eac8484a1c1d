"""`scan` on pickles of more than guards take by default: it says what a guard under the list says.
"""

import io
import pickle
import struct
import unittest

from storklocker import AllowList, Guard, Refused
from storklocker.scanning.dangers import judged
from test_readings import reports

_TEXT = "version = 2\n\n[limits]\n{}\n\n[imports]\n"
LISTS = {
    "none": AllowList([]),
    "large": AllowList.from_text(_TEXT.format("large = true")),
    "numbers": AllowList.from_text(_TEXT.format("numbers = 20000000")),
    "both": AllowList.from_text(_TEXT.format("large = true\nnumbers = 20000000")),
    "less": AllowList.from_text(_TEXT.format("stack = 1000")),
    "counted": AllowList.from_text(_TEXT.format("counted = 99")),
}
_LONG = b"X" + struct.pack("<I", 17_000_000) + b"a" * 17_000_000
PICKLES = {
    "a long text": b"\x80\x02" + _LONG + b".",
    "a high number": b"\x80\x02Nr\xff\xff\xff\0.",
    "many memo entries": b"\x80\x04" + b"N\x940" * 1_000_001 + b"N.",
    "many values": b"\x80\x02(" + b"N" * 1_000_001 + b"t.",
    "a text": b"\x80\x02X\x80\0\0\0" + b"a" * 128 + b".",
    "nothing": b"\x80\x02N.",
}
HARM = b"0cposix\nsystem\n(S'true'\ntR."


def statuses(data, allow):
    return {it.status for it in reports(data, allow)}


class WideLimits(unittest.TestCase):
    def test_scan_says_what_a_guard_says(self):
        for said, data in PICKLES.items():
            for name, allow in LISTS.items():
                try:
                    Guard(allow).load(io.BytesIO(data))
                    expected = "accepted"
                except Refused:
                    expected = "refused"
                for several in (data, pickle.dumps(1, 2) * 2_500 + data):
                    self.assertEqual(statuses(several, allow), {expected}, (said, name))

    def test_without_a_list(self):
        for said, data in PICKLES.items():
            expected = "unreadable" if said == "a high number" else "unjudged"
            self.assertEqual(statuses(data, None), {expected}, said)
        many = pickle.dumps([str(number) for number in range(1_100_000)], 2)
        self.assertEqual(statuses(many, None), {"unjudged"})

    def test_harm_behind_what_is_too_much_is_named(self):
        self.assertIsNotNone(judged("posix", "system"))
        for data in PICKLES.values():
            for allow in (*LISTS.values(), None):
                found = reports(data[:-1] + HARM, allow)[0]
                self.assertEqual(found.kind, "pickle")
                self.assertIn(("posix", "system"), found.imports)
                self.assertIn("danger", {it.severity for it in found.findings})


if __name__ == "__main__":
    unittest.main()

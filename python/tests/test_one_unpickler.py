"""Rows of pickles that one Unpickler reads otherwise than `pickle.load`: it keeps its memo, so that
a pickle's names may be others. What is run so is found.
"""

import collections
import datetime
import decimal
import io
import itertools
import os
import pickle
import random
import subprocess
import sys
import tempfile
import unittest
import unittest.mock
from pathlib import Path

from storklocker import AllowList
from storklocker.scanning import kept
from storklocker.scanning.judging import Question, reports_of

READER = """
import io, pickle, sys
data = sys.stdin.buffer.read()
file = io.BytesIO(data)
reader = pickle.Unpickler(file)
while file.tell() < len(data):
    reader.load() if sys.argv[1] == "one" else pickle.load(file)
"""
PROTO = b"\x80\x04"
RAN, CODECS = "touch ran", ("_codecs", "encode")


def text(word):
    return b"\x8c" + bytes([len(word)]) + word.encode()


TEXTS = PROTO + text("os") + b"\x94" + text("system") + b"\x94\x86."
"""Its memo has them under 0 and 1."""
SHOWN = PROTO + text("collections") + b"\x940" + text("OrderedDict") + b"\x940"
CALLED = b"h\0h\1\x93" + text("touch ran") + b"\x85R."
LISTED = AllowList([("collections", "OrderedDict"), ("builtins", "str"), ("collections", "deque")])
ROWS = {
    "texts": [TEXTS, SHOWN + CALLED],
    "behind others": [PROTO + b"N.", TEXTS, PROTO + b"N.", SHOWN + CALLED],
    "behind an honest import": [
        TEXTS,
        SHOWN + text("collections") + text("deque") + b"\x93)R0" + SHOWN[2:] + b"N.",
        SHOWN + CALLED,
    ],
    "an item of what is a list there": [
        PROTO + b"]\x94K\0a.",
        TEXTS,
        PROTO + b"}\x94h\0K\0K\1s0" + b"N.",
        PROTO + b"N\x940" + SHOWN[2:] + b"h\1h\2\x93" + text("touch ran") + b"\x85R.",
    ],
    "made by str": [
        PROTO + text("builtins") + text("str") + b"\x93\x94" + text("os") + b"\x85R\x94"
        + text("system") + b"\x94\x86.",
        PROTO + b"N\x940" + SHOWN[2:] + b"h\1h\2\x93" + text("touch ran") + b"\x85R.",
    ],
    "of what lacks it": [TEXTS, PROTO + CALLED],
    "of what leaves an object": [TEXTS, SHOWN.replace(b"0", b"", 1) + CALLED],
}


def reports(data, allow=None):
    return list(reports_of("row", io.BytesIO(data), Question(allow)))


def has_run(data, how):
    with tempfile.TemporaryDirectory() as folder:
        words = [sys.executable, "-c", READER, how]
        subprocess.run(words, input=data, cwd=folder, stderr=subprocess.DEVNULL)
        return Path(folder, "ran").exists()


class Rows(unittest.TestCase):
    def test_what_runs_is_dangerous(self):
        for name, parts in ROWS.items():
            with self.subTest(name=name):
                data = b"".join(parts)
                self.assertTrue(has_run(data, "one"))
                self.assertFalse(has_run(data, "each"))
                (report,) = reports(data)
                self.assertEqual(report.status, "dangerous", report)
                (report,) = reports(data, LISTED)
                self.assertEqual(report.status, "refused", report)

    def test_many_names_are_not_looked_for_one_by_one(self):
        row = [PROTO + text("m") + b"\x940N."]
        row += [PROTO + text("os") + b"\x940h\0" + text(f"N{it}") + b"\x93." for it in range(999)]
        with unittest.mock.patch.object(kept, "check_row", wraps=kept.check_row) as checked:
            reports(b"".join(row))
        self.assertIn(checked.call_count, range(2, 10))
        (report,) = reports(b"".join([*row, TEXTS, *row[1:2], SHOWN + CALLED]))
        self.assertNotEqual(report.status, "unjudged")

    def test_streams_of_one_pickler(self):
        """What one Pickler has written is broken for `pickle.load`, and judged as it is read."""
        day, word = datetime.date(2030, 1, 2), "a text"
        values = [[day, word], {word: day}, [collections.OrderedDict(a=day), word], day]
        for kind, protocol in itertools.product((pickle.Pickler, pickle._Pickler), range(2, 6)):
            file = io.BytesIO()
            pickler = kind(file, protocol)
            for it in values:
                pickler.dump(it)
            data, names = file.getvalue(), [("datetime", "date"), ("collections", "OrderedDict")]
            reader = pickle.Unpickler(io.BytesIO(data))
            self.assertEqual([reader.load() for _ in values], values)
            with self.subTest(kind=kind, protocol=protocol):
                listed = AllowList([*names, CODECS])
                for allow, status in ((None, "unjudged"), (listed, "accepted")):
                    (report,) = reports(data, allow)
                    self.assertEqual((report.status, report.findings), (status, ()), report)
                    self.assertEqual((report.pickles, report.size), (4, len(data)))
                (report,) = reports(data, AllowList(names[:1] + [CODECS]))
                self.assertEqual(report.status, "refused")
                self.assertIn("in pickle 2 at", report.why)

    def test_hostile_streams_of_one_pickler(self):
        class Evil:
            def __reduce__(self):
                return os.system, (RAN,)

        for values in ([[RAN], [RAN], [1], Evil()], [[RAN, os.system], os.system, [Evil(), RAN]]):
            file = io.BytesIO()
            pickler = pickle.Pickler(file, 4)
            for it in values:
                pickler.dump(it)
            self.assertTrue(has_run(file.getvalue(), "one"))
            (report,) = reports(file.getvalue())
            self.assertEqual(report.status, "dangerous", report)
            self.assertEqual(report.findings[0].calls, (f'{os.system.__module__}.system("{RAN}")',))
            (report,) = reports(file.getvalue(), LISTED)
            self.assertEqual(report.status, "refused", report)

    def test_what_each_reads_otherwise(self):
        """A stream that one Unpickler loads with harmless names, and which runs for `pickle.load`
        up to where it is broken.
        """
        front = PROTO + text("collections") + b"\x94" + text("OrderedDict") + b"\x94\x86."
        other = PROTO + text("os") + b"\x940" + text("system") + b"\x940h\0h\1\x93" + text(RAN)
        data = front + other + b"\x85R0h\3."
        self.assertTrue(has_run(data + PROTO + b"h\3.", "each"))
        self.assertFalse(has_run(data, "one"))
        for row in (data + PROTO + b"h\3.", data + PROTO + b"h\0."):
            self.assertEqual(reports(row)[0].status, "dangerous")
            self.assertEqual(reports(row, LISTED)[0].status, "refused")

    def test_a_module_of_the_reader(self):
        """So may a module that nobody knows, and that isn't here."""
        front = PROTO + text("collections") + b"\x94" + text("OrderedDict") + b"\x94\x86."
        other = PROTO + text("zz_theirs") + b"\x940" + text("Path") + b"\x940h\0h\1\x93" + text(RAN)
        data = front + other + b"\x85R0h\3."
        row = data + PROTO + b"h\3."
        with tempfile.TemporaryDirectory() as folder:
            Path(folder, "zz_theirs.py").write_text("from pathlib import Path\n")
            code = f"import sys; sys.path.append({folder!r})\n{READER}"
            words = [sys.executable, "-c", code, "each"]
            said = subprocess.run(words, input=row, capture_output=True, cwd=folder)
        self.assertIn(b"Memo value not found", said.stderr)  # (behind the import)
        self.assertNotIn(b"zz_theirs", said.stderr)
        (report,) = reports(row)
        self.assertIn("zz_theirs.Path", [it.name for it in report.findings])
        self.assertNotEqual(reports(row, LISTED)[0].status, "accepted")

    def test_honest_rows(self):
        """Most would be read as nonsense by one Unpickler."""
        dice = random.Random(1)
        values = [
            [1, "abc"], {"os": "system", "a": [2]}, collections.OrderedDict(a=1), b"x", {1, 2},
            [collections.Counter("ab"), collections.deque([1])], datetime.date(2030, 1, 1),
            [datetime.datetime(2030, 1, 1), datetime.timedelta(1), datetime.timezone.utc],
            [decimal.Decimal("1.5"), decimal.Decimal(2)], collections.defaultdict(list, {1: [2]}),
            [collections.OrderedDict(), collections.OrderedDict(b=2)], range(4), ValueError("x"),
        ]
        for _ in range(100):
            row = (pickle.dumps(it, dice.choice((2, 4, 5))) for it in dice.sample(values, 5))
            (report,) = reports(b"".join(row))
            self.assertEqual((report.status, report.findings), ("unjudged", ()), report)


if __name__ == "__main__":
    unittest.main()

"""Without a list, `scan` counts pickles that call what their own calls have made: their names don't
show what that does. A signature of Celery runs the task that a text names.
"""

import collections
import datetime
import gzip
import pickle
import sqlite3
import subprocess
import sys
import tempfile
import unittest
from pathlib import Path

from common import needs
from storklocker.scanning.source import BLOCK
from storklocker.scanning.words import Word
from test_readings import reports

SIGNATURE = b"\x80\x04ccelery.canvas\nSignature\n"
TASK = SIGNATURE + b"\x8c\x08calls.it\x85R"
HONEST, HOSTILE = TASK + b".", TASK + b")R."
DAY = pickle.dumps(datetime.date(2026, 1, 1), 4)
APP = """
import pathlib, pickle, sys
import celery
app = celery.Celery("calls", set_as_current=True)

@app.task(name="calls.it")
def it():
    pathlib.Path(sys.argv[2]).touch()

app.finalize()
pickle.loads(bytes.fromhex(sys.argv[1]))
"""


def words(data):
    return {(it.status, *(finding.kind for finding in it.findings)) for it in reports(data, None)}


COUNTED = {(Word.WARNING, "called-answer")}


class Calls(unittest.TestCase):
    def test_calls_of_answers_count(self):
        made = b"ccollections\nOrderedDict\n"
        for code in (b")R)R", b")\x81)R", b")\x81)\x81", b")R)}\x92", b")R\x940h\0)R",
                     b")R2)R\x86", b")R)R)R", b")Rq\x050h\x05)R"):
            self.assertEqual(words(b"\x80\x04" + made + code + b"."), COUNTED, code)
        for data in (b"\x80\x04((" + made + b"oo.", b"((icollections\nOrderedDict\no."):
            found = words(data)
            self.assertEqual({"called-answer"}, {kind for _, *kinds in found for kind in kinds})
        self.assertEqual(words(HOSTILE), COUNTED)

    def test_other_calls_do_not(self):
        for value in (collections.OrderedDict(a=1), [datetime.date(2026, 1, 1)] * 2,
                      {1: (collections.deque(), collections.Counter("a"))}):
            for protocol in range(6):
                self.assertEqual(words(pickle.dumps(value, protocol)), {(Word.UNJUDGED,)}, value)
        self.assertEqual(words(HONEST), {(Word.UNJUDGED,)})

    def test_what_no_pickler_writes_counts(self):
        """The calls behind it aren't followed."""
        data = b"\x80\x04Nr\x40\x42\x0f\x000" + HOSTILE[2:]
        self.assertIn("called-answer", {kind for _, *kinds in words(data) for kind in kinds})

    def test_it_counts_wherever_it_is(self):
        for data in (DAY * 300 + HOSTILE, HOSTILE + DAY, gzip.compress(HOSTILE),
                     HOSTILE[:-1] + b"X" + (2 * BLOCK).to_bytes(4, "little") + bytes(2 * BLOCK)
                     + b"\x86."):
            self.assertEqual(words(data), COUNTED)

    def test_it_counts_among_the_values_of_a_store(self):
        with tempfile.TemporaryDirectory() as folder:
            path = Path(folder, "base")
            for values, wanted in (([HONEST] * 500, set()), ([HONEST] * 400 + [HOSTILE], COUNTED)):
                base = sqlite3.connect(str(path))
                base.execute("drop table if exists kept")
                base.execute("create table kept (value)")
                base.executemany("insert into kept values (?)", [[it] for it in values])
                base.commit()
                base.execute("vacuum")
                base.close()
                found = words(path.read_bytes())
                self.assertEqual({it for it in found if it[1:]}, wanted)

    @needs("module:celery")
    def test_it_runs_a_task(self):
        """The control: `pickle` runs a task that only a text names."""
        with tempfile.TemporaryDirectory() as folder:
            for data, is_run in ((HONEST, False), (HOSTILE, True)):
                mark = Path(folder, "mark")
                subprocess.run([sys.executable, "-c", APP, data.hex(), str(mark)], check=True)
                self.assertEqual(mark.exists(), is_run)


if __name__ == "__main__":
    unittest.main()

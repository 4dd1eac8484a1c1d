"""What a guard accepts and refuses is counted, by `loads`, `load` and its `Unpickler`."""

import contextlib
import io
import os
import pickle
import signal
import sys
import unittest

import storklocker
from common import BY_PAIRS, BY_TEXT
from storklocker.metrics import CountingGuard, Counts

HOSTILE = b"cposix\nsystem\n(S'exit 3'\ntR."


class Metrics(unittest.TestCase):
    def test_each_way_to_load_is_counted_once(self):
        guard = CountingGuard(BY_PAIRS)
        ways = (
            guard.loads,
            lambda data: guard.loads(bytearray(data)),
            lambda data: guard.load(io.BytesIO(data)),
            lambda data: guard.load(io.BufferedReader(io.BytesIO(data))),
            lambda data: guard.Unpickler(io.BytesIO(data)).load(),
        )
        for way in ways:
            for data in (b"N.", HOSTILE, b"(", b"N)R."):
                with contextlib.suppress(storklocker.Refused, TypeError):
                    way(data)
        with self.assertRaises(storklocker.MoreBytes):
            guard.loads(b"N.N.")
        self.assertEqual(guard.counts.accepted, 2 * len(ways))  # N)R. is accepted, and raises
        wanted = {"ImportOffList": len(ways), "Truncated": len(ways), "MoreBytes": 1}
        self.assertEqual(guard.counts.refused, wanted)

    def test_a_child_counts_whatever_other_threads_did(self):
        guard = CountingGuard(BY_PAIRS)
        with guard.counts._lock:  # as a thread may hold it that the child doesn't have
            child = os.fork()
            if not child:
                signal.alarm(10)
                guard.loads(b"N.")
                os._exit(guard.counts.accepted - 1)
        self.assertEqual(os.waitpid(child, 0)[1], 0)

    def test_what_is_no_pickle_is_not_counted(self):
        guard = CountingGuard(BY_PAIRS)
        for call, error in (
            (lambda: guard.loads("text"), TypeError),
            (lambda: guard.load(io.BytesIO()), EOFError),
            (lambda: guard.load(io.StringIO("N.")), TypeError),
        ):
            with self.assertRaises(error):
                call()
        self.assertEqual((guard.counts.accepted, guard.counts.refused), (0, {}))

    def test_a_row(self):
        guard = CountingGuard(BY_PAIRS)
        reader = guard.Unpickler(io.BytesIO(b"N.N.0"))
        reader.load(), reader.load()
        with self.assertRaises(storklocker.Refused):
            reader.load()
        self.assertEqual((guard.counts.accepted, guard.counts.refused), (2, {"MissingItem": 1}))

    def test_without_enforcement(self):
        told = []
        guard = CountingGuard(storklocker.AllowList([]), on_refusal=told.append, enforce=False)
        for call in (guard.loads, lambda data: guard.load(io.BytesIO(data))):
            call(b"ccollections\ndeque\n.")
        self.assertEqual((guard.counts.accepted, guard.counts.refused), (0, {"ImportOffList": 2}))
        self.assertEqual(len(told), 2)

    def test_the_text_that_prometheus_reads(self):
        guard = CountingGuard(BY_TEXT)
        guard.loads(b"N.")
        with self.assertRaises(storklocker.Refused):
            guard.loads(HOSTILE)
        lines = guard.counts.text().splitlines()
        self.assertIn("storklocker_accepted_total 1", lines)
        self.assertIn('storklocker_refused_total{reason="ImportOffList"} 1', lines)
        self.assertEqual(sum(line.startswith("# TYPE ") for line in lines), 2)

    def test_a_copy_counts_from_nothing(self):
        guard = CountingGuard(BY_PAIRS)
        guard.loads(b"N.")
        again = pickle.loads(pickle.dumps(guard))
        again.loads(b"N.")
        self.assertEqual((guard.counts.accepted, again.counts.accepted), (1, 1))
        self.assertEqual(Counts().text().count("storklocker_accepted_total 0"), 1)


if __name__ == "__main__":
    sys.exit(unittest.main())

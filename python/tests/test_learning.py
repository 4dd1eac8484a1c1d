"""Names that a list lacks: a file that grows beside a guard, and the lists that are made of it."""

import collections
import contextlib
import functools
import io
import json
import logging
import os
import pickle
import signal
import subprocess
import sys
import tempfile
import threading
import time
import unittest
from pathlib import Path
from unittest import mock

import common
import storklocker
from storklocker import AllowList, Guard, _learning
from storklocker.metrics import CountingGuard
from storklocker.scanning.command import main

EARLY = functools.partial(pickle.loads)  # (`install` doesn't replace it)
UNLISTED = pickle.dumps(common.OBJECTS[6], 4)  # collections.Counter
NOTHING = Guard(AllowList([]))


def named(module, name):
    """A pickle that imports a name, and leaves None."""
    texts = (word.encode() for word in (module, name))
    words = b"".join(b"X" + len(text).to_bytes(4, "little") + text for text in texts)
    return b"\x80\x04" + words + b"\x930N."


class Learning(unittest.TestCase):
    def setUp(self):
        held = tempfile.TemporaryDirectory()
        self.addCleanup(held.cleanup)
        self.folder = Path(held.name)
        self.log = self.folder / "learned.jsonl"

    def seen(self):
        _learning._write_all()
        return _learning.read_log(self.log.read_text(encoding="utf-8"))

    def run_command(self, *words):
        out, errors = io.StringIO(), io.StringIO()
        with contextlib.redirect_stdout(out), contextlib.redirect_stderr(errors):
            status = main([str(word) for word in words])
        return status, out.getvalue(), errors.getvalue()


class Logs(Learning):
    def test_what_is_kept_of_a_name(self):
        guard = NOTHING.learning(self.log)
        before = int(time.time())
        with guard.context("first\nkey"):
            self.assertEqual(guard.loads(UNLISTED), collections.Counter("aab"))
        text = self.log.read_text()
        self.assertEqual(set(json.loads(text)), {"module", "name", *_learning.Seen._fields})
        with guard.context("second"):
            guard.loads(UNLISTED)
            guard.load(io.BytesIO(UNLISTED))
        # A name is written when it is new, and later.
        self.assertEqual(self.log.read_text(), text)
        (pair, seen), = self.seen().items()
        self.assertEqual(pair, ("collections", "Counter"))
        self.assertEqual((seen.key, seen.times), ("first\nkey", 3))
        self.assertTrue(before <= seen.first <= seen.last <= time.time())

    def test_counts_are_written_in_time(self):
        guard = NOTHING.learning(self.log)
        with mock.patch.object(_learning, "EVERY", 0.0):
            for count in range(1, 4):
                guard.loads(UNLISTED)
                self.assertEqual(len(self.log.read_text().splitlines()), count)
        self.assertEqual([it.times for it in self.seen().values()], [3])

    def test_it_only_reports_unless_it_is_to_enforce(self):
        told = []
        guard = Guard(AllowList([]), on_refusal=told.append)
        self.assertFalse(guard.learning(self.log).enforce)
        strict = pickle.loads(pickle.dumps(NOTHING.learning(self.log, enforce=True)))
        with self.assertRaises(storklocker.Refused):
            strict.loads(UNLISTED)
        self.assertEqual([*self.seen()], [("collections", "Counter")])
        guard.learning(self.log).loads(UNLISTED)
        self.assertEqual([it.verdict.pair for it in told], [("collections", "Counter")])
        counting = CountingGuard(AllowList([]))
        counting.learning(self.log).loads(UNLISTED)
        self.assertEqual(counting.counts.refused, {"ImportOffList": 1})

    def test_all_names_of_a_pickle_and_nothing_of_a_fault(self):
        guard = NOTHING.learning(self.log, enforce=True)
        for data in (UNLISTED[:9] + b"0" + named("a.b", "C.d")[2:], b"", b"\x80\x04\x8c", b"N.N."):
            with contextlib.suppress(pickle.UnpicklingError):
                guard.loads(data)
        with contextlib.suppress(pickle.UnpicklingError):
            guard.loads(named("a", "x")[:-2] + named("b", "y")[2:])
        self.assertEqual([*self.seen()], [("a", "x"), ("b", "y")])

    def test_what_a_stranger_makes_of_it(self):
        guard = NOTHING.learning(self.log)
        hostile = [
            ("os\n[imports]\nposix", "system"), ("a", "b\"]\n"), ("a" * 300, "b"), ("a", "b" * 300),
            ("a", "b c"), ("", "b"), ("a..b", "c"), ("a", "*"), ("-", "a"), ("a", "\u202eb"),
            ("{\"module\"", "b"), ("a", "b\0"),
        ]
        for pair in hostile:
            with contextlib.suppress(Exception), guard.context("k" * 10_000 + "\n[imports]"):
                guard.loads(named(*pair))
        with contextlib.suppress(Exception), guard.context(Exception()):
            guard.loads(named("a", "fine"))
        self.assertEqual([*self.seen()], [("a", "fine")])
        for line in self.log.read_text().splitlines():
            self.assertLess(len(line), 500)

    def test_the_file_is_bounded(self):
        with mock.patch.multiple(_learning, LARGEST=10_000, MOST=50):
            with self.assertLogs("storklocker", "WARNING") as logged:
                guard = NOTHING.learning(self.log)
                with contextlib.suppress(ModuleNotFoundError):
                    guard.loads(UNLISTED)
                for number in range(200):
                    with contextlib.suppress(ModuleNotFoundError):
                        guard.loads(named("m", f"n{number}" + "\u00e9" * 60))
                        self.assertLessEqual(self.log.stat().st_size, 10_000)
            self.assertEqual(len(logged.output), 1)
            self.assertIn("more than 50 names", logged.output[0])
            self.assertLessEqual(self.log.stat().st_size, 10_000)
            self.assertIn(("collections", "Counter"), self.seen())  # what came first stays

    def test_half_a_line_is_passed_over(self):
        guard = NOTHING.learning(self.log)
        guard.loads(UNLISTED)
        whole = self.log.read_bytes()
        for length in range(1, len(whole) - 1):
            self.log.write_bytes(whole[:length])
            NOTHING.learning(self.log).loads(UNLISTED)
            self.assertEqual(self.seen()["collections", "Counter"].times, 1, length)
        wrong = '{"module": "a", "name": "b", "key": "", "times": -1, "first": 0, "last": 0}'
        lines = ['{"module": 1}', "[]", wrong, "[" * 100_000, whole.decode()]
        self.log.write_text("\n".join(lines))
        self.assertEqual([*self.seen()], [("collections", "Counter")])

    def test_another_file_is_left_alone(self):
        other = self.folder / "list.toml"
        other.write_text("version = 1\n")
        with self.assertRaisesRegex(ValueError, "something else"):
            NOTHING.learning(other)
        with self.assertRaises(OSError):
            NOTHING.learning(self.folder / "nowhere" / "log")
        self.assertEqual(other.read_text(), "version = 1\n")

    def test_a_service_goes_on_where_nothing_can_be_written(self):
        guard = NOTHING.learning(self.log)
        with mock.patch("os.write", side_effect=OSError("full")):
            with self.assertLogs("storklocker", "WARNING") as logged:
                for _ in range(3):
                    guard.loads(UNLISTED)
                    guard.on_refusal._due = 0.0
        self.assertEqual(len(logged.output), 1)
        self.assertEqual(self.seen()["collections", "Counter"].times, 3)

    def test_a_file_that_others_hold_blocks_nobody(self):
        import fcntl

        guard = NOTHING.learning(self.log)
        with self.log.open("rb") as held, mock.patch.object(_learning, "_PAUSE", 0.0):
            fcntl.flock(held, fcntl.LOCK_EX)
            guard.loads(UNLISTED)
            self.assertEqual(self.log.read_bytes(), b"")
        self.assertEqual(self.seen()["collections", "Counter"].times, 1)

    def test_threads(self):
        guard = NOTHING.learning(self.log)

        def load():
            for number in range(50):
                guard.loads(UNLISTED)
                with contextlib.suppress(ModuleNotFoundError):
                    guard.loads(named("m", f"n{number}"))

        threads = [threading.Thread(target=load) for _ in range(4)]
        for thread in threads:
            thread.start()
        for thread in threads:
            thread.join()
        found = self.seen()
        self.assertEqual((len(found), {it.times for it in found.values()}), (51, {200, 4}))


WORK = """
import os, pickle, signal, sys, storklocker, test_learning as its
from storklocker import _learning
_learning.LARGEST, _learning.EVERY = int(sys.argv[3]), 0.0
guard = its.NOTHING.learning(sys.argv[1], enforce=True)
for number in range(int(sys.argv[2])):
    shared, own = its.named("shared", f"n{number}"), its.named("own", f"p{os.getpid()}n{number}")
    for data in (shared, own, shared, own):
        try:
            guard.loads(data)
        except storklocker.Refused:
            pass
    print(number, flush=True)
"""


class Processes(Learning):
    def started(self, count, largest):
        path = os.pathsep.join([str(common.IMPORTED_FROM), str(Path(__file__).parent)])
        return subprocess.Popen(
            [sys.executable, "-c", WORK, str(self.log), str(count), str(largest)],
            stdout=subprocess.PIPE,
            env={**os.environ, "PYTHONPATH": path},
        )

    def test_many_at_once(self):
        for largest in (1 << 22, 45_000):  # (the second has its lines merged on the way)
            with self.subTest(largest=largest):
                self.log.unlink() if self.log.exists() else None
                working = [self.started(40, largest) for _ in range(4)]
                for it in working:
                    it.communicate(timeout=120)
                    self.assertEqual(it.returncode, 0)
                found = self.seen()
                self.assertEqual(len([pair for pair in found if pair[0] == "shared"]), 40)
                self.assertEqual({found["shared", f"n{k}"].times for k in range(40)}, {8})
                self.assertLess(self.log.stat().st_size, largest)
                own = {f"p{it.pid}n{k}" for it in working for k in range(40)}
                self.assertEqual({name for module, name in found if module == "own"}, own)

    def test_what_is_killed_leaves_what_it_wrote(self):
        working = self.started(100_000, 1 << 15)
        for _ in range(50):
            last = int(working.stdout.readline())
        working.send_signal(signal.SIGKILL)
        working.communicate()
        found = self.seen()
        self.assertLessEqual({("shared", f"n{k}") for k in range(last)}, set(found))
        NOTHING.learning(self.log).loads(UNLISTED)
        self.assertIn(("collections", "Counter"), self.seen())
        left = [it for it in self.folder.iterdir() if it != self.log]
        self.assertLessEqual(len(left), 1)  # (a file that was to replace it)

    @unittest.skipUnless(hasattr(os, "fork"), "there is no fork")
    def test_a_forked_child_counts_its_own(self):
        guard = NOTHING.learning(self.log)
        guard.loads(UNLISTED)
        guard.loads(UNLISTED)
        child = os.fork()
        if child == 0:
            try:
                guard.loads(UNLISTED)
                _learning._write_all()
            finally:
                os._exit(0)
        os.waitpid(child, 0)
        self.assertEqual(self.seen()["collections", "Counter"].times, 3)


if __name__ == "__main__":
    logging.basicConfig()
    unittest.main()

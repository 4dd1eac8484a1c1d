"""Guards whose list file is looked at again, and what they tell of misuse."""

import asyncio
import copy
import io
import logging
import multiprocessing
import os
import pickle
import sys
import tempfile
import threading
import time
import unittest
from pathlib import Path
from unittest import mock

import common
import storklocker
import test_substitutes
from storklocker import AllowList, Guard, Misused, Refused, _reloading
from storklocker.metrics import CountingGuard

COUNTER = pickle.dumps(common.OBJECTS[6], 4)
ORDERED = pickle.dumps(common.OBJECTS[1], 4)
COUNTERS = AllowList([("collections", "Counter")])
BOTH = COUNTERS | AllowList([("collections", "OrderedDict")])


def is_loaded(load, data):
    try:
        load(data)
    except (Refused, storklocker.Unlisted):
        return False
    return True


class Reloading(unittest.TestCase):
    def setUp(self):
        held = tempfile.TemporaryDirectory()
        self.addCleanup(held.cleanup)
        self.path = Path(held.name, "list.toml")
        COUNTERS.to_file(self.path)
        self.clock = 0.0
        clock = mock.patch.object(_reloading.time, "monotonic", lambda: self.clock)
        clock.start()
        self.addCleanup(clock.stop)

    def guard(self, reload=30, **settings):
        return Guard.from_file(self.path, reload=reload, **settings)

    def test_without_a_time_the_list_stays(self):
        guard = Guard.from_file(self.path, fix_imports=True)
        self.assertIs(type(guard), Guard)
        BOTH.to_file(self.path)
        self.clock = 1e9
        self.assertEqual(guard.allow, COUNTERS)
        for wrong in (-1, "1", True, float("nan")):
            with self.assertRaises(ValueError):
                self.guard(wrong)
        self.path.write_text("version = 3")
        with self.assertRaises(storklocker.ListFault):
            self.guard()

    def test_a_new_list_applies_in_time(self):
        guard = self.guard()
        self.assertIsInstance(guard, Guard)
        ways = [
            guard.loads,
            lambda data: guard.load(io.BytesIO(data)),
            lambda data: guard.Unpickler(io.BytesIO(data)).load(),
            lambda data: asyncio.run(guard.loads_async(data)),
            lambda data: storklocker.Guard.loads(guard.now(), data),
            lambda data: guard.loads_front(data + b"rest", None, None, None),
        ]
        for after, is_listed in ((BOTH, True), (COUNTERS, False), (BOTH, True)):
            after.to_file(self.path)
            self.clock += 29.0
            self.assertEqual({is_loaded(way, ORDERED) for way in ways}, {not is_listed})
            self.clock += 2.0
            self.assertEqual({is_loaded(way, ORDERED) for way in ways}, {is_listed})
            self.assertEqual((bool(guard.check(ORDERED)), guard.allow), (is_listed, after))
            self.assertTrue(is_loaded(guard.loads, COUNTER))

    def test_what_passes_the_current_list_by_is_refused(self):
        guard = self.guard()
        self.assertFalse(is_loaded(lambda data: Guard.loads(guard, data), COUNTER))
        self.assertFalse(guard.judge(COUNTER))

    def test_it_looks_no_more_often(self):
        guard = self.guard()
        with mock.patch("os.stat", wraps=os.stat) as looks:
            for _ in range(100):
                guard.loads(COUNTER)
            self.assertEqual(looks.call_count, 0)
            self.clock += 30
            guard.loads(COUNTER)
            guard.loads(COUNTER)
            self.assertEqual(looks.call_count, 1)

    def test_size_time_and_inode_tell_a_change(self):
        guard = self.guard(0)
        status = self.path.stat()
        text = self.path.read_text().replace("Counter", "counter")
        self.path.write_text(text)
        os.utime(self.path, ns=(status.st_atime_ns, status.st_mtime_ns))
        self.assertTrue(is_loaded(guard.loads, COUNTER))  # (nothing tells these apart)
        other = self.path.with_name("other")
        other.write_text(text)
        os.utime(other, ns=(status.st_atime_ns, status.st_mtime_ns))
        other.replace(self.path)
        self.assertFalse(is_loaded(guard.loads, COUNTER))

    def test_a_broken_file_keeps_the_list_and_is_logged_once_a_change(self):
        guard = self.guard(0)
        eval_ = 'version = 1\n[imports]\nbuiltins = ["eval"]\n'
        for text in ("version = 1\n[imports", eval_, None, "version = 9\n"):
            with self.subTest(text=text):
                with self.assertLogs("storklocker", "ERROR") as logged:
                    self.path.unlink() if text is None else self.path.write_text(text)
                    for _ in range(5):
                        self.assertTrue(is_loaded(guard.loads, COUNTER))
                self.assertEqual(len(logged.output), 1, logged.output)
                self.assertIn(str(self.path), logged.output[0])
        BOTH.to_file(self.path)
        self.assertTrue(is_loaded(guard.loads, ORDERED))

    def test_a_file_that_is_being_written_is_looked_at_later(self):
        guard = self.guard(0)
        BOTH.to_file(self.path)
        with mock.patch.object(_reloading, "_read", return_value=(None, b"")):
            self.assertFalse(is_loaded(guard.loads, ORDERED))
        self.assertTrue(is_loaded(guard.loads, ORDERED))

    def test_a_load_has_one_list(self):
        """A list without the substitute replaces one that has it, between check and load."""
        AllowList(
            [("builtins", "getattr"), (test_substitutes.HERE, "Job")],
            substitutes={"builtins.getattr": test_substitutes.GETATTR},
        ).to_file(self.path)
        guard = self.guard(0)
        job = test_substitutes.name(test_substitutes.HERE, "Job")
        data = test_substitutes.whole(test_substitutes.attribute(job, "__dict__"))
        plain = AllowList([("builtins", "getattr"), (test_substitutes.HERE, "Job")],
                          dangerous=["builtins.getattr"])

        class Swapping(io.BytesIO):
            path = self.path

            def read(self, *given):
                plain.to_file(self.path)
                return super().read(*given)

        with self.assertRaises(Misused):
            guard.load(Swapping(data))
        self.assertIsNotNone(guard.loads(data))

    def test_a_subclass_of_its_unpickler_takes_the_list_as_it_is(self):
        guard = self.guard(0, fix_imports=True)

        class Mine(guard.Unpickler):
            def find_class(self, module, name):
                return super().find_class(module, name)

        for protocol in range(6):
            data = pickle.dumps(common.OBJECTS[1], protocol)
            for allow in (BOTH, COUNTERS):
                (allow | AllowList([("builtins", "bytes")])).to_file(self.path)
                loaded = is_loaded(lambda data: Mine(io.BytesIO(data)).load(), data)
                self.assertEqual(loaded, allow is BOTH)

    def test_settings_copies_and_counts(self):
        told = []
        guard = self.guard(0, on_refusal=told.append, fix_imports=True, max_bytes=1000)
        self.assertEqual((guard.enforce, guard.max_bytes), (True, 1000))
        self.assertFalse(is_loaded(guard.loads, ORDERED))
        self.assertEqual(told[0].verdict.pair, ("collections", "OrderedDict"))
        for made in (copy.copy(self.guard(0)), pickle.loads(pickle.dumps(self.guard(0)))):
            COUNTERS.to_file(self.path)
            self.assertEqual(made.allow, COUNTERS)
            BOTH.to_file(self.path)
            self.assertEqual(made.allow, BOTH)
            self.assertIn(str(self.path), repr(made))
        COUNTERS.to_file(self.path)
        counting = CountingGuard.from_file(self.path, reload=0)
        for allow in (COUNTERS, BOTH, COUNTERS):
            allow.to_file(self.path)
            is_loaded(counting.loads, ORDERED)
            is_loaded(counting.loads, COUNTER)
            is_loaded(lambda data: counting.Unpickler(io.BytesIO(data)).load(), COUNTER)
        self.assertEqual(counting.counts.refused, {"ImportOffList": 2})
        self.assertEqual(counting.counts.accepted, 7)
        log = self.path.with_name("log")
        learning = self.guard(0).learning(log, enforce=True)
        is_loaded(learning.loads, ORDERED)
        self.assertIn("OrderedDict", log.read_text())
        BOTH.to_file(self.path)
        self.assertTrue(is_loaded(learning.loads, ORDERED))

    def test_installed(self):
        logging.getLogger("storklocker").setLevel(logging.CRITICAL)
        self.addCleanup(logging.getLogger("storklocker").setLevel, logging.NOTSET)

        def by_default(data, read=pickle.loads):
            return read(data)

        with storklocker.installed(self.guard(0)):
            for allow in (COUNTERS, BOTH, COUNTERS):
                allow.to_file(self.path)
                is_listed = allow is BOTH
                self.assertEqual(is_loaded(lambda it: pickle.loads(it), ORDERED), is_listed)
                self.assertEqual(is_loaded(by_default, ORDERED), is_listed)
                self.assertTrue(is_loaded(by_default, COUNTER))
                reader = lambda it: pickle.Unpickler(io.BytesIO(it)).load()  # noqa: E731
                self.assertEqual(is_loaded(reader, ORDERED), is_listed)

    def test_threads(self):
        guard, wrong = self.guard(0), []
        ends = threading.Event()

        def load():
            while not ends.is_set():
                if not is_loaded(guard.loads, COUNTER):
                    wrong.append(1)

        threads = [threading.Thread(target=load) for _ in range(3)]
        for thread in threads:
            thread.start()
        for _ in range(30):
            for allow in (BOTH, COUNTERS):
                allow.to_file(self.path)
        ends.set()
        for thread in threads:
            thread.join()
        self.assertEqual(wrong, [])


class Telling(unittest.TestCase):
    """Misuse of a listed name comes to `on_refusal`."""

    def test_each_way_of_loading(self):
        told = []
        guard = Guard(test_substitutes.GUARD.allow, on_refusal=told.append)
        job = test_substitutes.name(test_substitutes.HERE, "Job")
        data = test_substitutes.whole(test_substitutes.attribute(job, "__dict__"))
        for load in (
            guard.loads,
            lambda data: guard.load(io.BytesIO(data)),
            lambda data: guard.Unpickler(io.BytesIO(data)).load(),
            Guard(guard.allow, on_refusal=told.append, enforce=False).loads,
        ):
            with self.assertRaises(Misused) as raised, storklocker.context("key"):
                load(data)
            (refusal,) = told
            self.assertEqual(refusal.misused, str(raised.exception))
            self.assertIn("getattr is called with", refusal.misused)
            self.assertEqual((bool(refusal.verdict), refusal.enforced), (True, True))
            about = refusal.context, refusal.size, refusal.missing
            self.assertEqual(about, ("key", len(data), ()))
            again = pickle.loads(pickle.dumps(refusal))
            self.assertEqual(
                (again.misused, again.sha256, again.size),
                (refusal.misused, refusal.sha256, len(data)),
            )
            told.clear()

    def test_it_is_counted(self):
        guard = CountingGuard(test_substitutes.GUARD.allow)
        job = test_substitutes.name(test_substitutes.HERE, "Job")
        data = test_substitutes.whole(test_substitutes.attribute(job, "__dict__"))
        for load in (guard.loads, lambda data: guard.load(io.BytesIO(data))):
            with self.assertRaises(Misused):
                load(data)
        self.assertEqual((guard.counts.accepted, guard.counts.refused), (2, {"Misused": 2}))


if __name__ == "__main__":
    unittest.main()

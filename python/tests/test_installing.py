"""What `install` leaves as it was, and what it says."""

import asyncio
import functools
import io
import logging
import multiprocessing.connection
import os
import pickle
import socket
import subprocess
import sys
import threading
import unittest
from pathlib import Path
from pickle import Unpickler as Named
from unittest import mock

import common
import storklocker

GUARD = storklocker.Guard(storklocker.AllowList({"datetime": ["date"]}), fix_imports=True)
UNLISTED = pickle.dumps(common.OBJECTS[1])
BEFORE = [pickle.loads]  # a name of this module would be replaced


def by_default(data, read=pickle.loads):
    return read(data)


def outcome(read, data=UNLISTED):
    try:
        return type(read(data)).__name__
    except pickle.UnpicklingError as error:
        return type(error).__name__


class Quiet(unittest.TestCase):
    """Tests of this file hold readers on purpose, which `install` logs."""

    def setUp(self):
        logging.getLogger("storklocker").setLevel(logging.ERROR)
        self.addCleanup(logging.getLogger("storklocker").setLevel, logging.NOTSET)


class Installed(Quiet):
    def test_ends_with_its_block(self):
        with storklocker.installed(GUARD):
            self.assertIsNot(pickle.loads, BEFORE[0])
            self.assertEqual(outcome(lambda data: pickle.loads(data)), "Refused")
            late, unpickler = pickle.loads, pickle.Unpickler
        self.assertIs(pickle.loads, BEFORE[0])
        self.assertEqual(outcome(by_default), "OrderedDict")
        self.assertEqual(outcome(late), "OrderedDict")
        self.assertEqual(outcome(lambda data: unpickler(io.BytesIO(data)).load()), "OrderedDict")

    def test_the_innermost_guard_applies(self):
        wider = storklocker.Guard(common.BY_PAIRS)
        with storklocker.installed(GUARD):
            with storklocker.installed(wider):
                self.assertEqual(outcome(lambda data: pickle.loads(data)), "OrderedDict")
                self.assertEqual(outcome(by_default), "OrderedDict")
            self.assertEqual(outcome(lambda data: pickle.loads(data)), "Refused")
            self.assertEqual(outcome(by_default), "Unlisted")

    def test_bytes_behind_a_pickle_are_ignored_as_before(self):
        with storklocker.installed(GUARD):
            self.assertEqual(pickle.loads(b"K\x01.rest"), 1)
            self.assertEqual(pickle.loads(bytearray(b"K\x01.rest")), 1)
            file = io.BytesIO(b"K\x01.K\x02.")
            self.assertEqual([pickle.load(file), pickle.load(file)], [1, 2])

    def test_a_report_only_guard_loads_and_reports(self):
        told = []
        guard = storklocker.Guard(
            storklocker.AllowList([]), on_refusal=told.append, enforce=False
        )
        with storklocker.installed(guard):
            self.assertEqual(outcome(by_default), "OrderedDict")
        self.assertEqual([it.verdict.pair for it in told], [("collections", "OrderedDict")])

    def test_what_is_left_is_said(self):
        partial = functools.partial(BEFORE[0])
        with self.assertLogs("storklocker", "WARNING") as logged:
            with storklocker.installed(GUARD) as done:
                pass
        self.assertIn("pickle.loads", done.replaced)
        self.assertIn("a functools.partial of loads", done.left)
        named = f"a default argument with loads: {__name__}.by_default"
        self.assertIn(named, done.left)
        self.assertTrue(any(named in line for line in logged.output), logged.output)
        self.assertEqual(partial(b"N."), None)

    def test_only_a_guard_is_installed(self):
        with self.assertRaisesRegex(TypeError, "guard must be a Guard"):
            storklocker.install(storklocker.AllowList([]))


class Early(Named):
    """Is made before a guard is installed, and calls its base by a name that is the guard's then.
    """

    def __init__(self, file):
        Named.__init__(self, file)

    def load(self):
        return Named.load(self)


class EarlySubclasses(Quiet):
    ROW = pickle.dumps([1, "a", "a"], 4) + pickle.dumps({"b": ["b"]}, 2) + b"rest"

    def test_they_read_rows_and_leave_the_file_behind_each(self):
        for kind in (io.BytesIO, lambda data: io.BufferedReader(io.BytesIO(data))):
            with storklocker.installed(GUARD):
                file = kind(self.ROW)
                reader = Early(file)
                self.assertEqual(reader.load(), [1, "a", "a"])
                self.assertEqual(file.tell(), self.ROW.index(b"\x80\x02"))
                self.assertEqual(reader.load(), {"b": ["b"]})
                self.assertEqual(file.read(), b"rest")
            self.assertEqual(Early(kind(self.ROW)).load(), [1, "a", "a"])

    def test_what_is_refused_is_not_begun(self):
        date = b"\x8c\x08datetime\x8c\x04date\x93M\xe8\x03K\x01K\x01\x87R0"
        first = b"\x80\x04" + date + UNLISTED[2:]
        with storklocker.installed(GUARD):
            for data in (UNLISTED, first, UNLISTED[:20], b""):
                with self.subTest(data=data), self.assertRaises((storklocker.Refused, EOFError)):
                    Early(io.BytesIO(data)).load()
            with storklocker.trusted():
                self.assertEqual(type(Early(io.BytesIO(UNLISTED)).load()).__name__, "OrderedDict")

    def test_the_memo_of_a_row_counts(self):
        """The second pickle names its import by what the first one left."""
        first = b"\x80\x04\x8c\x05posix\x940\x8c\x06system\x940N."
        second = b"\x80\x04\x8c\x01a\x940h\x00h\x01\x93."
        with storklocker.installed(GUARD):
            reader = Early(io.BytesIO(first + second))
            self.assertIsNone(reader.load())
            with self.assertRaises(storklocker.Refused):
                reader.load()


class Trusted(Quiet):
    def setUp(self):
        super().setUp()
        block = storklocker.installed(GUARD)
        block.__enter__()
        self.addCleanup(block.__exit__, None, None, None)

    def test_loads_as_before(self):
        with storklocker.trusted():
            self.assertEqual(outcome(lambda data: pickle.loads(data)), "OrderedDict")
            self.assertEqual(outcome(by_default), "OrderedDict")
            reader = pickle.Unpickler(io.BytesIO(UNLISTED))
        self.assertEqual(outcome(lambda data: pickle.loads(data)), "Refused")
        self.assertEqual(outcome(by_default), "Unlisted")
        self.assertEqual(outcome(lambda _: reader.load()), "Unlisted")

    def test_other_threads_stay_guarded(self):
        found = []
        with storklocker.trusted():
            thread = threading.Thread(target=lambda: found.append(outcome(by_default)))
            thread.start()
            thread.join()
        self.assertEqual(found, ["Unlisted"])

    def test_a_task_is_trusted_until_the_block_ends(self):
        async def both():
            async def load():
                first = outcome(by_default)
                await asyncio.sleep(0.01)
                return first, outcome(by_default)

            with storklocker.trusted():
                task = asyncio.ensure_future(load())
                await asyncio.sleep(0)
            return await task

        self.assertEqual(asyncio.run(both()), ("OrderedDict", "Unlisted"))


class OwnProcesses(Quiet):
    @common.needs("semaphores")
    def test_they_keep_working_and_are_guarded(self):
        for method in multiprocessing.get_all_start_methods():
            words = [sys.executable, str(Path(__file__).with_name("programs.py")), method]
            ran = subprocess.run(
                words,
                stdout=subprocess.PIPE,
                env={**os.environ, "PYTHONPATH": str(common.IMPORTED_FROM)},
                timeout=300,
                check=True,
            )
            expected = "2\n[4, 6]\n8\nRefused\n5\nRefused\n"
            self.assertEqual(ran.stdout.decode(), expected, method)

    def test_what_reads_for_others_is_judged_by_its_caller(self):
        """billiard, whose pool runs Celery's tasks, bound its readers before."""
        reading = {"__name__": "billiard.common", "load": BEFORE[0]}
        exec("def pickle_loads(data, load=load):\n    return load(data)", reading)
        code = "def _recv(data):\n    return pickle_loads(data)"
        with storklocker.installed(GUARD):
            for name, wanted in (("billiard.pool", "OrderedDict"), ("shop.jobs", "Unlisted")):
                calling = {"__name__": name, "pickle_loads": reading["pickle_loads"]}
                exec(code, calling)
                self.assertEqual(outcome(calling["_recv"]), wanted)
            direct = {"__name__": "celery.concurrency.asynpool", "pickle_loads": BEFORE[0]}
            exec(code.replace("_recv", "_recv_message"), direct)
            self.assertEqual(outcome(direct["_recv_message"]), "OrderedDict")
            with storklocker.installed(GUARD, own=["shop.jobs"]):
                self.assertEqual(outcome(calling["_recv"]), "OrderedDict")

    def test_a_manager_on_the_network_is_guarded(self):
        with socket.create_server(("127.0.0.1", 0)) as server:
            plain = socket.create_connection(server.getsockname())
            connection = multiprocessing.connection.Connection(plain.detach())
            self.assertFalse(self._is_read_unchecked(connection))
            connection.close()

    def test_a_pipe_is_this_machines(self):
        here, there = multiprocessing.Pipe()
        self.assertTrue(self._is_read_unchecked(here))
        here.close()
        there.close()

    def _is_read_unchecked(self, connection):
        """Whether `multiprocessing.managers` may load what comes from a connection unchecked."""
        from storklocker.everywhere import own

        reading = {
            "__name__": "multiprocessing.connection",
            "judged": lambda: own.is_own(sys._getframe(1), frozenset()),
        }
        exec("def recv(self):\n    return judged()", reading)
        serving = {"__name__": "multiprocessing.managers", "recv": reading["recv"]}
        exec("def serve_client(connection):\n    return recv(connection)", serving)
        return serving["serve_client"](connection)


class Unavailable(Quiet):
    def test_no_audit_events_is_said(self):
        from storklocker.everywhere import installing

        with mock.patch.object(installing, "_audits", return_value=False):
            with storklocker.installed(GUARD) as done:
                self.assertIn("other readers: this Python has no audit events", done.left)


if __name__ == "__main__":
    unittest.main()

"""A signal interrupts the check of a long row, and its answers are those of a short one."""

import os
import resource
import signal
import subprocess
import sys
import threading
import time
import unittest
from unittest import mock

import storklocker
from common import BY_PAIRS, IMPORTED_FROM, needs, python
from storklocker._checking import INTERRUPTIBLE_FROM
from storklocker._waiting import interruptible

LONG = 1 << 27  # bytes: a check of so many takes some seconds of processor time
ROW = b"N." * (INTERRUPTIBLE_FROM // 2)
BEGIN = """
import io, signal, time, storklocker
class Late(Exception): pass
def raise_late(*_): raise Late
signal.signal(signal.SIGALRM, raise_late)
signal.signal(signal.SIGINT, signal.default_int_handler)
allow = storklocker.AllowList([])
"""


class Interrupts(unittest.TestCase):
    def test_an_interrupt_ends_the_process(self):
        for one_unpickler in (False, True):
            code = (
                f"{BEGIN}data = b'N.' * {LONG // 2}; print('begun', flush=True)\n"
                f"storklocker.check_row(data, allow, one_unpickler={one_unpickler})"
            )
            with self.subTest(one_unpickler=one_unpickler), started(code) as process:
                self.assertEqual(process.stdout.readline(), "begun\n")
                time.sleep(0.2)
                process.send_signal(signal.SIGINT)
                before = resource.getrusage(resource.RUSAGE_CHILDREN).ru_utime
                said = process.communicate()[1]
                after = resource.getrusage(resource.RUSAGE_CHILDREN).ru_utime
                self.assertLess(after - before, 1.5)
                self.assertEqual(said.splitlines()[-1], "KeyboardInterrupt")
                self.assertEqual(process.returncode, -signal.SIGINT)

    def test_a_handler_that_raises_ends_the_call(self):
        said = python(
            f"{BEGIN}data = b'N.' * {LONG // 2}; signal.setitimer(signal.ITIMER_REAL, 0.2)\n"
            "began = time.process_time()\n"
            "try: storklocker.check_row(data, allow)\n"
            "except Late: print(time.process_time() - began)"
        )
        self.assertLess(float(said), 1)

    def test_a_handler_that_returns_does_not(self):
        said = python(
            f"{BEGIN}signal.signal(signal.SIGALRM, lambda *_: print('heard'))\n"
            f"data = b'N.' * {1 << 23}; signal.setitimer(signal.ITIMER_REAL, 0.05)\n"
            "print(storklocker.check_row(data, allow))"
        )
        self.assertEqual(said, f"heard\nyes: {1 << 24} bytes, {1 << 23} pickles, 0 imports\n")

    def test_an_unpickler_loads_again(self):
        # after the first pickle, whose length is that of whole blocks, it reads on
        said = python(
            f"{BEGIN}data = b'N0' * ((1 << 24) - 1) + b'N.'\n"
            "file = io.BytesIO(data + b'I7\\n.N.')\n"
            "unpickler = storklocker.Guard(allow).Unpickler(file); unpickler.load()\n"
            "signal.setitimer(signal.ITIMER_REAL, 0.05)\n"
            "try: unpickler.load()\n"
            "except Late: print('late', file.tell() - len(data))\n"
            "print(unpickler.load(), file.tell() - len(data))"
        )
        self.assertEqual(said, "late 0\n7 4\n")


class Answers(unittest.TestCase):
    def test_main_thread_and_others(self):
        def work():
            for one_unpickler in (False, True):
                said = storklocker.check_row(ROW, BY_PAIRS, one_unpickler=one_unpickler)
                answers.append((said.taken, said.pickles))
                no = storklocker.check_row(ROW + b"0.", BY_PAIRS, one_unpickler=one_unpickler)
                answers.append(str(no))

        answers = []
        work()
        thread = threading.Thread(target=work)
        thread.start()
        thread.join()
        length = len(ROW)
        wanted = [(length, length // 2), f"no in pickle {length // 2} at {length}: MissingItem"]
        self.assertEqual(answers, wanted * 4)

    def test_without_another_thread(self):
        refused = RuntimeError("can't start new thread")
        with mock.patch.object(threading.Thread, "start", side_effect=refused):
            self.assertEqual(storklocker.check_row(ROW, BY_PAIRS).taken, len(ROW))

    def test_errors(self):
        for data in (None, "N." * INTERRUPTIBLE_FROM, bytearray(ROW)):
            with self.subTest(kind=type(data)), self.assertRaises(TypeError) as raised:
                storklocker.check_row(data, BY_PAIRS)
            self.assertIn("data must be bytes", str(raised.exception))
        for error in (MemoryError("no room"), KeyboardInterrupt()):
            with self.subTest(error=error), self.assertRaises(type(error)) as raised:
                interruptible(mock.Mock(side_effect=error))
            self.assertIs(raised.exception, error)

    @needs("/proc/self/statm")
    def test_memory_that_is_refused(self):
        said = python(
            f"{BEGIN}import resource\n"
            "data = b'(' * (64 << 20)\n"
            "pages = int(open('/proc/self/statm').read().split()[0])\n"
            "most = pages * resource.getpagesize() + (200 << 20)\n"
            "resource.setrlimit(resource.RLIMIT_AS, (most, most))\n"
            "limits = storklocker.Limits(stack=1 << 30, large=True)\n"
            "try: storklocker.check_row(data, allow, limits=limits)\n"
            "except MemoryError: print('no memory')"
        )
        self.assertEqual(said, "no memory\n")


def started(code):
    """A process that runs some code."""
    return subprocess.Popen(
        [sys.executable, "-c", code],
        stdout=subprocess.PIPE,
        stderr=subprocess.PIPE,
        text=True,
        env={**os.environ, "PYTHONPATH": str(IMPORTED_FROM)},
    )


if __name__ == "__main__":
    unittest.main()

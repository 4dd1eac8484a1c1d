"""A guard reads files of every kind, rows of pickles among them, as `pickle` does."""

import collections
import gzip
import io
import os
import pickle
import sys
import tempfile
import threading
import unittest
from multiprocessing import connection
from pathlib import Path

import storklocker
from common import BY_PAIRS
from guarding import GUARD, HOSTILE, NOTHING, ROW
from storklocker import AllowList, Guard, Reason, Refused
from storklocker.contrib import multiprocessing as guarded
from storklocker.contrib.joblib import load_joblib
from storklocker.contrib.torch import load_torch
from streams import Minimal, Piped, files


class Files(unittest.TestCase):
    def test_a_file_at_its_end(self):
        for file in files(b""):
            with self.subTest(file=file), self.assertRaises(EOFError):
                GUARD.load(file)
        for file in files(pickle.dumps(1) + pickle.dumps([2])):
            with self.subTest(file=file):
                self.assertEqual((GUARD.load(file), GUARD.load(file)), (1, [2]))
                with self.assertRaises(EOFError):
                    GUARD.load(file)

    def test_a_cut_pickle(self):
        data = pickle.dumps([b"x" * 100_000, "y" * 70_000, 5], 4)
        for length in (1, 2, 10, 5_000, 150_000, len(data) - 1):
            for file in files(data[:length]):
                with self.subTest(file=file, length=length), self.assertRaises(Refused) as raised:
                    GUARD.load(file)
                self.assertIs(raised.exception.reason, Reason.Truncated)

    def test_every_protocol_and_size(self):
        values = [
            "a" * 300_000,
            [*range(20_000)],
            {"k": ("b" * 70_000,)},
            [{"n": k} for k in range(3000)],
            1 << 2000,
        ]
        for value in values:
            for protocol in range(1, 6):  # (a line of protocol 0 has a limit)
                data = pickle.dumps(value, protocol)
                for file in files(data + b"more"):
                    with self.subTest(file=file, protocol=protocol):
                        self.assertEqual(NOTHING.load(file), value)
                        self.assertEqual(file.read(4), b"more")

    def test_every_opcode_is_walked(self):
        data = b"S'caf\\xe9\\''\nI5\nF1.5\nL7L\nV\\u00e9\np9\ng9\nT\x01\0\0\0aU\x01b"
        data += b"(K\1M\1\0J\1\0\0\0\x8a\1\5\x8b\1\0\0\0\5tt."
        data = b"(" + data
        wanted = pickle.loads(data, encoding="latin-1")
        self.assertEqual(NOTHING.load(Minimal(data + b"N."), encoding="latin-1"), wanted)

    def test_a_payload_that_is_announced(self):
        for front in (
            b"B\xff\xff\xff\x7f",
            b"\x8e" + b"\xff" * 7 + b"\x7f",
            b"\x8d" + b"\xff" * 8,
            b"T\xff\xff\xff\xff",
        ):
            file = Piped(front + bytes(1 << 20), 1 << 16)
            with self.subTest(front=front), self.assertRaises(Refused):
                NOTHING.load(file)
            self.assertLess(file.inner.tell(), 1 << 18)

    def test_a_line_without_an_end(self):
        for front in (b"I", b"V", b"P", b"cposix\n"):
            inner = Piped(front + b"1" * (1 << 20), 1 << 14)
            for file in (inner, io.BufferedReader(inner)):
                inner.inner.seek(0)
                with self.subTest(front=front, file=file), self.assertRaises(Refused):
                    NOTHING.load(file)
                self.assertLess(inner.inner.tell(), 1 << 18)
        with gzip.GzipFile(fileobj=io.BytesIO(gzip.compress(b"V" + bytes(1 << 24)))) as file:
            with self.assertRaises(Refused) as raised:
                NOTHING.load(file)
            self.assertIs(raised.exception.reason, Reason.TooLarge)
        line = b"V" + b"a" * 65_536 + b"\n."
        self.assertEqual(NOTHING.load(Piped(line, 100)), "a" * 65_536)
        told = []
        line = b"V" + b"a" * 200_000 + b"\n."
        guard = Guard(AllowList([]), on_refusal=told.append, enforce=False)
        self.assertEqual(guard.load(Piped(line, 1 << 14)), "a" * 200_000)
        self.assertEqual([it.verdict.reason for it in told], [Reason.TooLarge])

    def test_a_pickle_in_front_of_much(self):
        with tempfile.TemporaryFile() as file:
            file.write(pickle.dumps([1, 2]))
            file.truncate(1 << 40)
            file.seek(0)
            self.assertEqual(GUARD.load(file), [1, 2])
            file.seek(0)
            self.assertEqual(GUARD.Unpickler(file).load(), [1, 2])

    def test_a_pipe_whose_buffer_has_the_pickle(self):
        for data, wanted in ((pickle.dumps([1, 2]), [1, 2]), (HOSTILE, Refused)):
            reading, writing = os.pipe()
            with open(reading, "rb") as file:
                with open(writing, "wb") as out:
                    out.write(data + b"rest")
                file.peek()
                if wanted is Refused:
                    with self.assertRaises(Refused):
                        GUARD.load(file)
                else:
                    self.assertEqual(GUARD.load(file), wanted)
                    self.assertEqual(file.read(), b"rest")

    def test_a_file_that_fails(self):
        class Failing(io.BytesIO):
            def read(self, *_):
                raise OSError("the disk is gone")

        class Silent(Minimal):
            def __init__(self):
                self.read = self.readline = lambda *_: None

        for file, error in (
            (Failing(b"N."), OSError),
            (Silent(), BlockingIOError),
            (io.StringIO("N."), TypeError),
            (open(os.devnull), TypeError),
            (io.TextIOWrapper(io.BytesIO(b"\x80\x04N."), "utf-8"), TypeError),
            (io.TextIOWrapper(Piped(b"\x80\x04N."), "utf-8"), TypeError),
            (open(os.devnull, "wb"), OSError),
            (Minimal, TypeError),
        ):
            with self.subTest(file=file), self.assertRaises(error):
                GUARD.load(file)
            with self.subTest(file=file), self.assertRaises(error):
                GUARD.Unpickler(file).load()
            getattr(file, "close", lambda: None)() if not isinstance(file, type) else None

    def test_a_closed_file(self):
        file = io.BytesIO(b"N.")
        file.close()
        with self.assertRaises(ValueError):
            GUARD.load(file)


class Rows(unittest.TestCase):
    def test_one_pickler_one_unpickler(self):
        shared = {"a": 1}
        for protocol in range(6):
            out = io.BytesIO()
            pickler = GUARD.Pickler(out, protocol)
            for value in (shared, [shared], (shared, "b")):
                pickler.dump(value)
            for file in files(out.getvalue()):
                reader = GUARD.Unpickler(file)
                with self.subTest(file=file, protocol=protocol):
                    first, second, third = reader.load(), reader.load(), reader.load()
                    self.assertIs(second[0], first)
                    self.assertEqual(third, (first, "b"))
                    with self.assertRaises(EOFError):
                        reader.load()
            file = io.BytesIO(out.getvalue())
            GUARD.load(file)
            if protocol < 4:  # (else its entry 0 is what it memoized itself)
                with self.assertRaises(Refused) as raised:
                    GUARD.load(file)
                self.assertIs(raised.exception.reason, Reason.MissingMemo)

    def test_a_memo_that_is_kept_names_an_import(self):
        for file in files(b"".join(ROW)):
            reader = GUARD.Unpickler(file)
            self.assertEqual(reader.load(), ("posix", "system"))
            with self.subTest(file=file), self.assertRaises(Refused) as raised:
                reader.load()
            self.assertEqual(raised.exception.pair, ("posix", "system"))
            self.assertEqual(raised.exception.verdict.pickles, 1)
        self.assertTrue(storklocker.check_row(b"".join(ROW), BY_PAIRS))
        self.assertFalse(storklocker.check_row(b"".join(ROW), BY_PAIRS, one_unpickler=True))

    def test_the_file_stands_behind_each(self):
        datas = [
            pickle.dumps(value, protocol)
            for value in ("a" * 10_000, [1] * 500, 5)
            for protocol in range(6)
        ]
        file = io.BytesIO(b"".join(datas) + b"rest")
        reader, place = GUARD.Unpickler(file), 0
        for data in datas:
            self.assertEqual(reader.load(), pickle.loads(data))
            place += len(data)
            self.assertEqual(file.tell(), place)
        self.assertEqual(file.read(), b"rest")

    def test_a_file_that_is_moved_or_grows(self):
        file = io.BytesIO(b"N.raw bytesI5\n.")
        reader = GUARD.Unpickler(file)
        self.assertIsNone(reader.load())
        self.assertEqual(file.read(9), b"raw bytes")
        self.assertEqual(reader.load(), 5)
        with self.assertRaises(EOFError):
            reader.load()
        file.write(b"I6\n.")
        file.seek(-4, 2)
        self.assertEqual(reader.load(), 6)
        file.seek(0)
        self.assertIsNone(reader.load())

    def test_a_long_row(self):
        count = 30_000
        file = io.BytesIO(pickle.dumps({"k": 1}) * count)
        reader = NOTHING.Unpickler(file)
        for _ in range(count):
            reader.load()
        with self.assertRaises(EOFError):
            reader.load()

    def test_a_load_that_failed_ends_its_reader(self):
        # accepted, and then an error of the load itself
        file = io.BytesIO(b"N)R.N.")
        reader = GUARD.Unpickler(file)
        with self.assertRaises(TypeError):
            reader.load()
        self.assertEqual(file.tell(), 4)
        with self.assertRaises(pickle.UnpicklingError):
            reader.load()
        self.assertIsNone(GUARD.load(file))

    def test_no_load_within_a_load(self):
        class Reader(GUARD.Unpickler):
            def persistent_load(self, _):
                return self.load()

        with self.assertRaises(RuntimeError):
            Reader(io.BytesIO(b"Pone\n.N.")).load()


class Inherited(unittest.TestCase):
    def test_persistent_load_and_find_class(self):
        class Reader(GUARD.Unpickler):
            def persistent_load(self, number):
                return ("kept", number)

            def find_class(self, module, name):
                self.found = (module, name)
                return super().find_class(module, name)

        reader = Reader(io.BytesIO(b"(P7\nccollections\nOrderedDict\nt.cos\nsystem\n."))
        self.assertEqual(reader.load(), (("kept", "7"), collections.OrderedDict))
        self.assertEqual(reader.found, ("collections", "OrderedDict"))
        with self.assertRaises(Refused):
            reader.load()
        self.assertEqual(reader.found, ("collections", "OrderedDict"))

    def test_persistent_load_of_the_object(self):
        reader = GUARD.Unpickler(io.BytesIO(b"P7\n."))
        reader.persistent_load = lambda number: number * 2
        self.assertEqual(reader.load(), "77")
        with self.assertRaises(pickle.UnpicklingError):
            GUARD.Unpickler(io.BytesIO(b"P7\n.")).load()

    def test_a_class_that_forgets_its_parent(self):
        class Reader(GUARD.Unpickler):
            def __init__(self):
                pass

        with self.assertRaises(pickle.UnpicklingError):
            Reader().load()

    def test_classes_of_two_guards(self):
        self.assertIs(GUARD.Unpickler, GUARD.Unpickler)
        self.assertIsNot(GUARD.Unpickler, NOTHING.Unpickler)
        with self.assertRaises(Refused):
            NOTHING.Unpickler(io.BytesIO(b"ccollections\ndeque\n.")).load()
        self.assertIs(
            GUARD.Unpickler(io.BytesIO(b"ccollections\ndeque\n.")).load(), collections.deque
        )


class Origins(unittest.TestCase):
    """A refusal names where the pickle comes from, unless the caller does."""

    def test_the_name_of_a_file(self):
        contexts = []
        guard = Guard(BY_PAIRS, on_refusal=lambda refusal: contexts.append(refusal.context))
        with tempfile.TemporaryDirectory() as folder:
            path = Path(folder, "x.pkl")
            path.write_bytes(b"N.N.N." + HOSTILE + b"N.")  # (PyTorch's old format has five)
            for load in (_last_of, _last_unpickled, load_torch):
                with self.subTest(load=load), self.assertRaises(Refused) as raised:
                    load(path, guard)
                self.assertEqual(raised.exception.origin, ascii(str(path)))
            path.write_bytes(HOSTILE)
            for caller, origin in ((None, str(path)), ("mine", "mine")):
                with storklocker.context(caller), self.assertRaises(Refused):
                    load_joblib(path, guard)
                self.assertEqual(contexts.pop(), origin)
        with self.assertRaises(Refused) as raised:
            load_joblib(HOSTILE, guard)
        self.assertEqual(raised.exception.origin, "")

    def test_the_other_end_of_a_connection(self):
        with guarded.Listener(("localhost", 0), NOTHING, authkey=b"key") as listener:
            sender = threading.Thread(target=_send, args=(listener.address,))
            sender.start()
            with listener.accept() as accepted, self.assertRaises(Refused) as raised:
                accepted.recv()
            sender.join()
            self.assertEqual(raised.exception.origin, ascii(listener.last_accepted))


def _last_of(path, guard):
    with open(path, "rb") as file:
        for _ in range(4):
            guard.load(file)


def _last_unpickled(path, guard):
    with open(path, "rb") as file:
        unpickler = guard.Unpickler(file)
        for _ in range(4):
            unpickler.load()


def _send(address):
    with connection.Client(address, authkey=b"key") as plain:
        plain.send_bytes(HOSTILE)


if __name__ == "__main__":
    sys.exit(unittest.main())

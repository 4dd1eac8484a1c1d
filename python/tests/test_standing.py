"""The readers that `install` puts in place of those of `pickle` are like them, and go when no guard
is installed any more.
"""

import _pickle
import abc
import copy
import functools
import inspect
import io
import itertools
import logging
import multiprocessing.reduction
import os
import pickle
import subprocess
import sys
import types
import unittest
import weakref
from pickle import loads as bound_before
from unittest import mock

import common
import storklocker

GUARD = storklocker.Guard(common.BY_PAIRS)
NOTHING = storklocker.Guard(storklocker.AllowList([]))
ORIGINALS = {name: [vars(pickle)[name]] for name in ("load", "loads", "Unpickler", "_Unpickler")}
DATA = pickle.dumps(common.OBJECTS[1])
PARTIAL = functools.partial(pickle.loads, DATA)


class Early(pickle.Unpickler):
    pass


class EarlyInPython(pickle._Unpickler):
    pass


class Holder:
    loads = pickle.loads
    static = staticmethod(pickle.loads)
    Unpickler = pickle.Unpickler


def is_guarded(read=lambda data: pickle.loads(data)):
    try:
        read(pickle.dumps(common.OBJECTS[6]))
    except storklocker.Refused:
        return True
    return False


class Quiet(unittest.TestCase):
    def setUp(self):
        logging.getLogger("storklocker").setLevel(logging.CRITICAL)
        self.addCleanup(logging.getLogger("storklocker").setLevel, logging.NOTSET)


def seen_of(reader):
    """What a program can see of a reader, but for its identity."""
    try:
        signature = str(inspect.signature(reader))
    except ValueError:
        signature = None
    kept = {name: getattr(reader, name, None) for name in ("__module__", "__name__", "__doc__")}
    return {
        **kept,
        "qualified": reader.__qualname__,
        "self": getattr(reader, "__self__", None),
        "repr": repr(reader).partition(" at 0x")[0],
        "signature": signature,
        "builtin": inspect.isbuiltin(reader),
        "routine": inspect.isroutine(reader),
        "is of C": isinstance(reader, types.BuiltinFunctionType),
        "bound": hasattr(reader, "__get__"),
        "pickled": [pickle.dumps(reader, protocol) for protocol in range(6)],
        "pickled in Python": pickle._dumps(reader),
        "equal": reader == reader and hash(reader) == hash(reader),
    }


class Alike(Quiet):
    def test_functions(self):
        names = ("load", "loads", "_load", "_loads")
        before = {name: seen_of(vars(pickle)[name]) for name in names}
        with storklocker.installed(GUARD):
            for name in names:
                self.assertEqual(seen_of(vars(pickle)[name]), before[name])
            for name in ("load", "loads"):
                self.assertIsNot(vars(pickle)[name], ORIGINALS[name][0])
                self.assertIs(vars(pickle)[name], vars(_pickle)[name])
            self.assertIs(bound_before, pickle.loads)
            self.assertIs(multiprocessing.reduction.ForkingPickler.loads, pickle.loads)

    def test_classes(self):
        for name in ("Unpickler", "_Unpickler"):
            plain = ORIGINALS[name][0]
            with storklocker.installed(GUARD):
                kind = vars(pickle)[name]
                self.assertIsNot(kind, plain)
                self.assertIsInstance(kind, type)
                self.assertEqual(repr(kind), repr(plain))
                self.assertEqual(kind.__doc__, plain.__doc__)
                self.assertIs(pickle.loads(pickle.dumps(b"")), b"")
                for protocol in range(6):
                    self.assertIs(copied_by_name(kind, protocol), kind)
                reader = kind(io.BytesIO(DATA))
                early = (Early if name == "Unpickler" else EarlyInPython)(io.BytesIO(DATA))
                for made in (reader, early, plain(io.BytesIO(DATA))):
                    self.assertIsInstance(made, kind)
                    self.assertTrue(issubclass(type(made), kind))
                self.assertIs(type(reader), kind)
                self.assertNotIsInstance(3, kind)
                self.assertIs(weakref.ref(kind)(), kind)
                self.assertIs(copy.deepcopy(kind), kind)

    def test_they_are_no_methods(self):
        def calls():
            class Serializer:  # of a library that is imported then
                loads, load, dumps = pickle.loads, pickle.load, pickle.dumps

            return [
                Serializer().loads(DATA),
                Serializer.loads(DATA),
                Serializer().load(io.BytesIO(DATA)),
                Holder().loads(DATA),
                Holder().static(DATA),
                Holder().Unpickler(io.BytesIO(DATA)).load(),
            ]

        expected = calls()
        with storklocker.installed(GUARD):
            self.assertEqual(calls(), expected)
        with storklocker.installed(NOTHING):
            for read in (Holder().loads, Holder().static):
                with self.assertRaises(storklocker.Refused):
                    read(DATA)
        self.assertEqual(calls(), expected)

    def test_they_are_wrapped_copied_and_referred_to(self):
        with storklocker.installed(GUARD):
            for reader in (pickle.loads, pickle.load):
                wrapped = functools.wraps(reader)(lambda *given: reader(*given))
                self.assertEqual(wrapped.__name__, reader.__name__)
                self.assertIs(copy.copy(reader), reader)
                self.assertIs(copy.deepcopy([reader])[0], reader)
                self.assertIs(weakref.ref(reader)(), reader)
            self.assertEqual(functools.partial(pickle.loads, DATA)(), common.OBJECTS[1])

    def test_errors_of_calls(self):
        calls = [
            lambda: pickle.loads(),
            lambda: pickle.loads("text"),
            lambda: pickle.loads(DATA, 1),
            lambda: pickle.loads(DATA, wrong=1),
            lambda: pickle.loads(b""),
            lambda: pickle.load(),
            lambda: pickle.load(3),
            lambda: pickle.load(io.BytesIO()),
            lambda: pickle.Unpickler(),
            lambda: pickle.Unpickler(3),
            lambda: pickle.load(file=io.BytesIO(DATA)),
            lambda: pickle.Unpickler(file=io.BytesIO(DATA)).load(),
            lambda: pickle.loads(DATA, fix_imports=False, encoding="latin1", errors="ignore"),
        ]
        for enforce in (True, False):
            for number, call in enumerate(calls):
                expected = raised_by(call)
                with self.subTest(enforce=enforce, number=number):
                    with storklocker.installed(GUARD.like(enforce=enforce)):
                        found = raised_by(call)
                    # (what is no pickle is refused)
                    self.assertIn(found, (expected, "Refused" if expected == "EOFError" else ""))

    def test_subclasses(self):
        class Persistent(pickle.Unpickler):
            def persistent_load(self, number):
                return ("object", number)

        class Both(pickle.Unpickler, abc.ABC):
            def find_class(self, module, name):
                return super().find_class(module, name)

        with storklocker.installed(GUARD):
            late = type("Late", (pickle.Unpickler,), {"persistent_load": lambda self, it: it})
            mixed = type("Mixed", (pickle.Unpickler, abc.ABC), {})
            for kind in (Both, mixed):
                self.assertEqual(kind(io.BytesIO(DATA)).load(), common.OBJECTS[1])
            self.assertEqual(late(io.BytesIO(b"\x80\x04K\x05Q.")).load(), 5)
            self.assertEqual(Persistent(io.BytesIO(b"\x80\x04K\x05Q.")).load(), ("object", 5))
            with self.assertRaises(pickle.UnpicklingError):
                pickle.Unpickler(io.BytesIO(b"\x80\x04K\x05Q.")).load()

    def test_the_memo(self):
        data = pickle.dumps(["a", "a"])
        with storklocker.installed(GUARD):
            reader = pickle.Unpickler(io.BytesIO(data))
            self.assertEqual(reader.load(), ["a", "a"])
            self.assertIn("a", reader.memo.values())
            for wrong in (object, {-1: None}, {"a": 1}, 3):
                with self.assertRaises((TypeError, ValueError)):
                    reader.memo = wrong
            reader = pickle.Unpickler(io.BytesIO(2 * data))
            self.assertEqual(reader.load(), ["a", "a"])
            reader.memo = {}
            self.assertEqual(reader.load(), ["a", "a"])
            for held in (reader.memo, {0: "a"}, {}, {number: "a" for number in range(100)}):
                reader.memo = held
            with self.assertRaises(pickle.UnpicklingError):
                reader.load()
        with storklocker.installed(GUARD.like(enforce=False)):
            first = pickle.Unpickler(io.BytesIO(b"\x80\x04\x8c\x01a\x94."))
            self.assertEqual(first.load(), "a")
            reader = pickle.Unpickler(io.BytesIO(b"\x80\x04h\x00."))
            reader.memo = first.memo
            self.assertEqual(reader.load(), "a")


def copied_by_name(it, protocol):
    with storklocker.trusted():
        return pickle.loads(pickle.dumps(it, protocol))


def raised_by(call):
    try:
        return repr(call())
    except Exception as error:
        return type(error).__name__


class Sent(Quiet):
    """What is pickled under a guard loads in a process without one, and the other way round."""

    READ = (
        "import pickle, sys\n{}"
        "with storklocker.trusted():\n    made = pickle.loads(bytes.fromhex(sys.argv[-1]))\n"
        "print(made is pickle.loads, made)"
    )
    WITHOUT = (
        "import contextlib, types\n"
        "storklocker = types.SimpleNamespace(trusted=contextlib.nullcontext)\n"
    )
    WITH = (
        "import storklocker\n"
        "storklocker.install(storklocker.Guard(storklocker.AllowList([])))\n"
    )

    def test_both_ways(self):
        pickled = {pickle.dumps(pickle.loads), pickle.dumps(pickle.loads, 2)}
        with storklocker.installed(GUARD):
            pickled |= {pickle.dumps(pickle.loads), pickle.dumps(ORIGINALS["loads"][0])}
        for data in pickled:
            for before in (self.WITH, self.WITHOUT):
                code = self.READ.format(before).replace("sys.argv[-1]", repr(data.hex()))
                self.assertRegex(common.python(code), "True <built-in function loads>")

    def test_what_was_held_before_is_pickled(self):
        held = [PARTIAL, ORIGINALS["loads"][0], ORIGINALS["load"][0], len, [].append, "".join]
        before = [pickle.dumps(it) for it in held]
        with storklocker.installed(GUARD):
            for it in held[:3]:
                pickle.dumps(it)
            self.assertEqual([pickle.dumps(it) for it in held[3:]], before[3:])
        self.assertEqual([pickle.dumps(it) for it in held], before)


class Ends(Quiet):
    def test_blocks_end_in_any_order(self):
        for order in itertools.permutations(range(3)):
            guards = [NOTHING, GUARD, GUARD.like(fix_imports=True)]
            blocks = [storklocker.installed(guard) for guard in guards]
            for block in blocks:
                block.__enter__()
            for number, ended in enumerate(order):
                self.assertTrue(is_guarded(), order)
                self.assertIsNot(pickle.loads, ORIGINALS["loads"][0])
                blocks[ended].__exit__(None, None, None)
            self.assertFalse(is_guarded())
            for name, (plain,) in ORIGINALS.items():
                self.assertIs(vars(pickle)[name], plain)
            self.assertIs(bound_before, ORIGINALS["loads"][0])
            self.assertIs(Holder.loads, ORIGINALS["loads"][0])

    def test_the_guard_that_remains_applies(self):
        first, second = storklocker.installed(NOTHING), storklocker.installed(GUARD)
        first.__enter__()
        second.__enter__()
        self.assertEqual(pickle.loads(DATA), common.OBJECTS[1])
        first.__exit__(None, None, None)
        self.assertEqual(pickle.loads(DATA), common.OBJECTS[1])
        second.__exit__(None, None, None)
        second = storklocker.installed(GUARD)
        with storklocker.installed(NOTHING):
            second.__enter__()
        self.assertTrue(is_guarded())
        second.__exit__(None, None, None)

    def test_what_another_has_put_there_stays(self):
        def other(data):
            return "other"

        with mock.patch.object(pickle, "loads", pickle.loads):
            with storklocker.installed(GUARD):
                pickle.loads = other
            self.assertIs(pickle.loads, other)
        self.assertIs(pickle.loads, ORIGINALS["loads"][0])

    def test_what_was_bound_in_a_block_is_guarded_in_the_next(self):
        with storklocker.installed(GUARD):
            held = [pickle.loads, pickle.Unpickler]
            late = type("Late", (pickle.Unpickler,), {})
        readers = [
            held[0],
            lambda data: held[1](io.BytesIO(data)).load(),
            lambda data: late(io.BytesIO(data)).load(),
        ]
        for read in readers:
            self.assertFalse(is_guarded(read))
        with storklocker.installed(GUARD):
            for read in readers:
                self.assertTrue(is_guarded(read))


class Processes(Quiet):
    @common.needs("semaphores")
    def test_a_pool_maps_a_reader(self):
        code = (
            "import multiprocessing, pickle, storklocker\n"
            "listed = storklocker.AllowList({'datetime': ['date']})\n"
            "storklocker.install(storklocker.Guard(listed))\n"
            "import datetime\n"
            "good, bad = pickle.dumps(datetime.date(2026, 1, 2)), b'cposix\\ngetpid\\n)R.'\n"
            "with multiprocessing.get_context('fork').Pool(1) as pool:\n"
            "    print(pool.map(pickle.loads, [good]))\n"
            "    for call in (pool.map, pool.imap):\n"
            "        try:\n            print(list(call(pickle.loads, [bad])))\n"
            "        except pickle.UnpicklingError as error:\n"
            "            print(type(error).__name__)\n"
        )
        ran = subprocess.run(
            [sys.executable, "-c", code],
            stdout=subprocess.PIPE,
            env={**os.environ, "PYTHONPATH": str(common.IMPORTED_FROM)},
            timeout=300,
        )
        self.assertEqual(
            ran.stdout.decode(), "[datetime.date(2026, 1, 2)]\nRefused\nRefused\n"
        )


if __name__ == "__main__":
    unittest.main()

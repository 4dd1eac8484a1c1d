"""A guard stands where the module `pickle` stands, and loads nothing that wasn't accepted."""

import array
import asyncio
import collections
import contextlib
import ctypes
import gc
import io
import os
import pickle
import sys
import threading
import unittest

import storklocker
from common import BY_PAIRS, BY_TEXT, OBJECTS, SEEDS
from guarding import GUARD, HOSTILE, NOTHING
from storklocker import AllowList, Guard, Refused
from streams import files


class Loads(unittest.TestCase):
    def test_each_accepted_seed(self):
        accepted = [data for data in SEEDS if GUARD.check(data)]
        self.assertGreaterEqual(len(accepted), 20)
        for data in accepted:
            for given in (data, bytearray(data), memoryview(data)):
                self.assertEqual(GUARD.loads(given), pickle.loads(data))
            for file in files(data + b"rest"):
                with self.subTest(file=file):
                    self.assertEqual(GUARD.load(file), pickle.loads(data))
                    self.assertEqual(file.read(4)[:4], b"rest"[:4])

    def test_what_pickle_has(self):
        for name in (
            "HIGHEST_PROTOCOL",
            "DEFAULT_PROTOCOL",
            "PickleError",
            "PicklingError",
            "UnpicklingError",
            "Pickler",
            "PickleBuffer",
            "dump",
            "dumps",
            "format_version",
            "compatible_formats",
        ):
            self.assertIs(getattr(GUARD, name), getattr(pickle, name))
        for value in OBJECTS[:4]:
            out = io.BytesIO()
            GUARD.dump(value, out, 2)
            GUARD.Pickler(out).dump(value)
            self.assertEqual(GUARD.dumps(value), pickle.dumps(value))
            out.seek(0)
            self.assertIsInstance(GUARD.__name__, str)

    def test_nothing_of_a_hostile_pickle_is_run(self):
        for guard in (GUARD, NOTHING, Guard(BY_TEXT), Guard(BY_PAIRS, fix_imports=True)):
            for given in (
                HOSTILE,
                bytearray(HOSTILE),
                HOSTILE + bytes(100_000),
                bytearray(HOSTILE + bytes(100_000)),
            ):
                with self.assertRaises(Refused) as raised:
                    guard.loads(given)
                self.assertEqual(raised.exception.pair, ("posix", "system"))
            for file in files(HOSTILE + b"rest"):
                with self.subTest(file=file), self.assertRaises(Refused):
                    guard.load(file)
                if isinstance(file, io.BytesIO):
                    self.assertEqual(file.tell(), 0)

    def test_both_refusals_are_unpickling_errors(self):
        for data in (HOSTILE, b"N.N."):
            with self.assertRaises(Refused), contextlib.suppress(KeyError):
                GUARD.loads(data)
            with self.assertRaises(pickle.UnpicklingError):
                GUARD.loads(data)

    def test_a_refusal_leaves_the_garbage_collector_nothing(self):
        GUARD.load(io.BytesIO(b"N."))  # imports what it needs
        calls = [
            lambda: GUARD.loads(HOSTILE),
            lambda: GUARD.loads(b"N.N."),
            lambda: GUARD.load(io.BytesIO(HOSTILE)),
            lambda: GUARD.Unpickler(io.BytesIO(HOSTILE)).load(),
        ]
        refused = 0
        for number, call in enumerate(calls):
            gc.collect()
            gc.disable()
            try:
                call()
            except Refused:
                refused += 1
            with self.subTest(number=number):
                self.assertIn(gc.collect(), (0, None))  # PyPy doesn't say
            gc.enable()
        self.assertEqual(refused, len(calls))

    def test_what_is_missing_under_limits_of_the_guard(self):
        limits = storklocker.Limits(stack=3)
        for guard in (NOTHING, Guard(NOTHING.allow, limits=limits)):
            for data in (b"(cm\na\ncm\nb\nt.", b"(cm\na\ncm\nb\nNNt."):
                with self.subTest(guard=guard), self.assertRaises(Refused) as raised:
                    guard.loads(data)
                found = raised.exception.verdict.missing
                self.assertEqual([it.name for it in found], ["a", "b"])

    def test_bad_input(self):
        for given in (None, "N.", 5, [78, 46], object()):
            for words, call in (
                ("data must be bytes", GUARD.loads),
                ("data must be bytes", GUARD.check),
                ("data must be bytes", lambda it: asyncio.run(GUARD.loads_async(it))),
                ("file must have 'read'", GUARD.load),
                ("file must have 'read'", GUARD.Unpickler),
            ):
                with self.subTest(given=given), self.assertRaisesRegex(TypeError, words):
                    call(given)
        for given in (None, [("a", "b")], "list.toml", {"a": ["b"]}, AllowList):
            for call in (
                lambda: Guard(given),
                lambda: storklocker.loads(b"N.", given),
                lambda: storklocker.check(b"N.", given),
                lambda: storklocker.check_row(b"N.", given),
            ):
                with self.subTest(given=given), self.assertRaises(TypeError) as raised:
                    call()
                self.assertIn("AllowList", str(raised.exception))

    def test_bad_settings(self):
        for named in ({"limits": 5}, {"limits": (1, 2)}, {"on_refusal": 5}, {"heap": 1}):
            with self.subTest(named=named), self.assertRaises(TypeError):
                Guard(BY_PAIRS, **named)
        for word in ("latin-1", "", None, 1):
            with self.subTest(word=word), self.assertRaises(ValueError):
                Guard(BY_PAIRS, old_strings=word)
        for given in (None, 0, 1, "", "no"):
            for name, call in (
                ("enforce", lambda **named: Guard(BY_PAIRS, **named)),
                ("fix_imports", lambda **named: Guard(BY_PAIRS, **named)),
                ("fix_imports", lambda **named: storklocker.loads(b"N.", BY_PAIRS, **named)),
                ("one_unpickler", lambda **named: storklocker.check_row(b"", BY_PAIRS, **named)),
                ("large", storklocker.Limits),
            ):
                with self.subTest(name=name, given=given), self.assertRaises(TypeError) as raised:
                    call(**{name: given})
                self.assertIn(f"{name} must be True or False", str(raised.exception))
        for words in ((), (b"N.",), (b"N.", BY_PAIRS, 5)):
            for call in (storklocker.check, storklocker.check_row):
                with self.subTest(words=words), self.assertRaises(TypeError):
                    call(*words)
        with self.assertRaises(TypeError):
            storklocker.check(b"N.", BY_PAIRS, encoding="ASCII")
        with self.assertRaises(TypeError):
            storklocker.check(b"N.", BY_PAIRS, data=b"N.")

    def test_a_buffer_that_changes(self):
        # what is loaded is the copy that was checked
        data = bytearray(b"\x8c\x01aN.")
        data[3:] = b"."
        view = memoryview(data)
        self.assertEqual(GUARD.loads(view), "a")
        data[2] = 0x62
        self.assertEqual(GUARD.loads(view), "b")
        words = memoryview(pickle.dumps("abc", 2)).tolist()
        every_other = memoryview(bytes(it for pair in zip(words, words) for it in pair))[::2]
        self.assertEqual(GUARD.loads(every_other), "abc")

    def test_buffers_of_every_format(self):
        data = pickle.dumps("a" * 20_000, 4)
        data += bytes(8 - len(data) % 8)
        for given in (
            (ctypes.c_ubyte * len(data)).from_buffer_copy(data),
            (ctypes.c_uint64 * (len(data) // 8)).from_buffer_copy(data),
            array.array("Q", data),
            memoryview(data).cast("B", (len(data) // 8, 8)),
        ):
            with self.subTest(given=type(given)):
                with self.assertRaises(storklocker.MoreBytes) as raised:
                    GUARD.loads(given)
                self.assertEqual(raised.exception.length, len(data))
                self.assertEqual(Guard(BY_PAIRS, enforce=False).loads(given), "a" * 20_000)

    def test_what_is_refused_by_its_front_is_not_copied(self):
        told = []
        guard = Guard(BY_PAIRS, on_refusal=told.append)
        for front, error in ((HOSTILE, Refused), (b"N.", storklocker.MoreBytes)):
            given = bytearray(front + bytes(1 << 20))
            with self.subTest(front=front), self.assertRaises(error) as raised:
                guard.loads(given)
            self.assertLess(told.pop().size, 1 << 16)
        self.assertEqual((raised.exception.taken, raised.exception.length), (2, 2 + (1 << 20)))

    def test_old_strings(self):
        guard = Guard(BY_PAIRS, old_strings="bytes")
        self.assertEqual(guard.loads(b"U\x01\xe9."), b"\xe9")
        self.assertEqual(guard.loads(b"U\x01\xe9.", encoding="bytes"), b"\xe9")
        self.assertEqual(guard.load(io.BytesIO(b"U\x01\xe9.")), b"\xe9")
        for call in (
            lambda **it: guard.loads(b"N.", **it),
            lambda **it: guard.load(io.BytesIO(b"N."), **it),
        ):
            for more in ({"encoding": "latin-1"}, {"errors": "replace"}):
                with self.assertRaises(ValueError):
                    call(**more)
        self.assertEqual(GUARD.load(io.BytesIO(b"U\x01\xe9."), encoding="latin-1"), "\u00e9")
        self.assertEqual(GUARD.loads(b"U\x01\xe9.", errors="replace", fix_imports=True), "\ufffd")

    def test_buffers(self):
        buffers = []
        data = pickle.dumps(pickle.PickleBuffer(b"abc"), 5, buffer_callback=buffers.append)
        self.assertEqual(bytes(NOTHING.loads(data, buffers=buffers)), b"abc")
        self.assertEqual(bytes(NOTHING.load(io.BytesIO(data), buffers=buffers)), b"abc")
        with self.assertRaises(pickle.UnpicklingError):
            NOTHING.loads(data)


class Told(unittest.TestCase):
    def test_a_refusal_is_told(self):
        told = []
        guard = Guard(BY_PAIRS, on_refusal=told.append)
        with guard.context({"key": 7}), self.assertRaises(Refused):
            guard.loads(HOSTILE)
        with self.assertRaises(storklocker.MoreBytes):
            guard.loads(b"N.N.")
        with self.assertRaises(Refused):
            guard.load(io.BytesIO(HOSTILE))
        first, second, third = told
        self.assertEqual(
            (first.verdict.pair, first.size, first.context),
            (("posix", "system"), len(HOSTILE), {"key": 7}),
        )
        self.assertEqual((bool(second.verdict), second.size, second.context), (True, 4, None))
        self.assertEqual(third.size, len(HOSTILE))
        self.assertEqual([it.data for it in told], [HOSTILE, b"N.N.", HOSTILE])
        self.assertEqual(len(first.sha256), 64)
        self.assertTrue(first.enforced)
        again = pickle.loads(pickle.dumps(first))
        self.assertEqual((again.data, again.size), (b"", first.size))
        self.assertEqual(
            (repr(again), again.sha256, again.missing), (repr(first), first.sha256, first.missing)
        )

    def test_what_is_missing(self):
        told = []
        guard = Guard(BY_PAIRS, on_refusal=told.append)
        with self.assertRaises(Refused):
            guard.loads(b"(ca\nb\nccollections\ndeque\ncc\nd\nca\nb\nl.")
        self.assertEqual(told[0].missing, (("a", "b"), ("c", "d")))
        self.assertEqual(
            storklocker.imports(b"(ca\nb\nca\nb\nPx\nVy\n\x93l."),
            [("a", "b"), ("a", "b"), (None, None)],
        )
        with self.assertRaises(Refused):
            storklocker.imports(b"0.")
        self.assertEqual(storklocker.missing(b"0.", BY_PAIRS), [])

    def test_a_verdict_finds_all_that_is_missing(self):
        data = b"(ca\nb\nccollections\ndeque\ncc\nd\nca\nb\nPx\nVy\n\x93l."
        wanted = (("a", "b"), ("c", "d"), (None, None))
        for verdict in (
            storklocker.check(data, BY_PAIRS),
            storklocker.check(data, BY_TEXT, limits=storklocker.Limits(stack=9)),
            GUARD.check(data + b"more"),
        ):
            self.assertEqual((verdict.pair, verdict.missing), (("a", "b"), wanted))
            self.assertEqual(pickle.loads(pickle.dumps(verdict)).missing, wanted)
        with self.assertRaises(Refused) as raised:
            GUARD.loads(data)
        again = pickle.loads(pickle.dumps(raised.exception))
        self.assertEqual(again.verdict.missing, (("a", "b"),))  # the bytes stayed behind
        self.assertEqual(raised.exception.verdict.missing, wanted)
        unknown = storklocker.check(b"(Px\nVy\n\x93ca\nb\nl.", BY_PAIRS)
        self.assertEqual((unknown.pair, unknown.missing), (None, ((None, None), ("a", "b"))))
        for refused, missing in (
            (b"ca\nb\ncc\nd\n.", (("a", "b"), ("c", "d"))),  # no good under any list
            (b"N0.", ()),
            (b"N.", ()),
        ):
            self.assertEqual(storklocker.check(refused, BY_PAIRS).missing, missing)
        row = storklocker.check_row(b"N." + data, BY_PAIRS)
        self.assertEqual(row.missing, (("a", "b"),))

    def test_what_a_pickle_of_a_row_lacks(self):
        told = []
        reader = Guard(BY_PAIRS, on_refusal=told.append).Unpickler(
            io.BytesIO(b"N.(ca\nb\ncc\nd\nl.")
        )
        self.assertIsNone(reader.load())
        with self.assertRaises(Refused):
            reader.load()
        self.assertEqual(told[0].missing, (("a", "b"), ("c", "d")))

    def test_a_hook_that_fails(self):
        def failing(_):
            raise KeyError("hook")

        for enforce in (True, False):
            with self.assertRaises(KeyError):
                Guard(BY_PAIRS, on_refusal=failing, enforce=enforce).loads(HOSTILE)

    def test_without_enforcement_it_is_told_and_loaded(self):
        told = []
        guard = Guard(AllowList([]), on_refusal=told.append, enforce=False)
        data = b"ccollections\ndeque\n."
        self.assertIs(guard.loads(data), collections.deque)
        self.assertIs(guard.loads(bytearray(data + bytes(10_000))), collections.deque)
        for file in files(data + b"rest"):
            self.assertIs(guard.load(file), collections.deque)
            self.assertEqual(file.read(4), b"rest")
        reader = guard.Unpickler(io.BytesIO(2 * data))
        self.assertEqual([reader.load(), reader.load()], 2 * [collections.deque])
        self.assertIsNone(guard.loads(b"N.N."))
        self.assertGreater(len(told), 6)
        self.assertFalse(any(it.enforced for it in told))
        count = len(told)
        guard.loads(b"N.")
        self.assertEqual(len(told), count)


class Together(unittest.TestCase):
    def test_asyncio(self):
        large = pickle.dumps([{"n": k} for k in range(20_000)])
        seen = set()

        class Watched(Guard):
            def loads(self, data, /, **named):
                seen.add(
                    (len(data) > 65_536, threading.current_thread() is threading.main_thread())
                )
                return super().loads(data, **named)

        guard = Watched(BY_PAIRS)

        async def all_of_them():
            with guard.context("here"):
                return await asyncio.gather(
                    guard.loads_async(b"N."),
                    guard.loads_async(large),
                    guard.loads_async(HOSTILE),
                    guard.loads_async(HOSTILE + bytes(70_000)),
                    return_exceptions=True,
                )

        small, many, *refused = asyncio.run(all_of_them())
        self.assertEqual((small, len(many)), (None, 20_000))
        self.assertEqual([type(it) for it in refused], 2 * [Refused])
        self.assertEqual(seen, {(False, True), (True, False)})

    def test_threads(self):
        wrong = []
        large = pickle.dumps([{"n": k} for k in range(3_000)])

        done = []

        def work():
            for _ in range(50):
                for data in (large, b"N.", SEEDS[10]):
                    if GUARD.loads(data) != GUARD.load(io.BytesIO(data)):
                        wrong.append(data)
                for call in (GUARD.loads, lambda it: GUARD.load(io.BytesIO(it))):
                    try:
                        call(HOSTILE)
                    except Refused:
                        continue
                    wrong.append(call)
            done.append(True)

        threads = [threading.Thread(target=work) for _ in range(4)]
        for thread in threads:
            thread.start()
        for thread in threads:
            thread.join()
        self.assertEqual((wrong, len(done)), ([], 4))

    @unittest.skipIf(not hasattr(os, "fork"), "no fork")
    def test_a_forked_worker(self):
        child = os.fork()
        if child == 0:
            status = 1
            with contextlib.suppress(Refused):
                status = 2 if GUARD.loads(b"N.") is not None else 3
                GUARD.loads(HOSTILE)
                status = 4
            os._exit(0 if status == 3 else status)
        self.assertEqual(os.waitpid(child, 0)[1], 0)


if __name__ == "__main__":
    sys.exit(unittest.main())

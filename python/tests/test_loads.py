"""`Guard.loads`, which checks and loads in one call of C: every way through it, and its memory."""

import copyreg
import gc
import inspect
import os
import pickle
import sys
import threading
import unittest
import weakref

import storklocker
from common import BY_PAIRS, LISTED, SEEDS, python
from storklocker import AllowList, Guard, Misused, MoreBytes, Refused, _storklocker

HOSTILE = b"cposix\nsystem\n(S'exit 3'\ntR."
RAISING = b"\x80\x04\x8c\x08datetime\x8c\x08datetime\x93)R."  # an accepted call that fails
LARGE = pickle.dumps([{"n": k} for k in range(9_000)])  # its check releases the GIL
GUARD = Guard(BY_PAIRS)
REPORTING = Guard(BY_PAIRS, enforce=False)
SUBSTITUTING = Guard(AllowList([("builtins", "bytes")]))


of_cpython = unittest.skipIf(sys.implementation.name != "cpython", "another interpreter")


class Words(unittest.TestCase):
    @of_cpython
    def test_its_signature(self):
        named = inspect.signature(Guard.loads).parameters
        wanted = ["self", "data", "fix_imports", "encoding", "errors", "buffers"]
        self.assertEqual(list(named), wanted)
        self.assertEqual({named[it].default for it in wanted[2:]}, {None})
        self.assertIn("MoreBytes", inspect.getdoc(Guard.loads))

    def test_what_it_does_not_take(self):
        for words, named in (
            ((), {}),
            ((b"N.", b"N."), {}),
            ((b"N.",), {"fixed": None}),
            ((), {"data": b"N."}),
            ((None,), {}),
            (("N.",), {}),
        ):
            for guard in (GUARD, REPORTING, SUBSTITUTING):
                with self.subTest(words=words, named=named), self.assertRaises(TypeError):
                    guard.loads(*words, **named)

    def test_words_that_say_nothing(self):
        for data in SEEDS[3:6]:
            for named in ({"encoding": None}, {"buffers": None}, {"fix_imports": True}):
                self.assertEqual(GUARD.loads(data, **named), pickle.loads(data))

    def test_a_list_of_a_subclass(self):
        class Own(AllowList):
            pass

        guard = Guard(Own(LISTED))
        self.assertEqual(guard.loads(SEEDS[10]), pickle.loads(SEEDS[10]))
        self.assertRaises(Refused, guard.loads, HOSTILE)

    def test_a_guard_that_was_not_initialized(self):
        self.assertRaises(AttributeError, Guard.__new__(Guard).loads, b"N.")
        self.assertRaises(AttributeError, _storklocker.Loads().loads, b"N.")

    def test_what_begins_it(self):
        for words in ((object(), None), (GUARD, object()), (GUARD, LISTED), (BY_PAIRS, BY_PAIRS)):
            with self.subTest(words=words), self.assertRaises(TypeError):
                _storklocker.begin_loads(*words, pickle.loads, False)

    def test_names_of_python_2_are_loaded_as_they_are_checked(self):
        data = b"c__builtin__\nset\n."
        guard = Guard(AllowList([("__builtin__", "set"), ("builtins", "set")]))
        self.assertIs(pickle.loads(data), set)
        self.assertIs(guard.loads(data), set)
        guard = guard.like(fix_imports=False)
        self.assertRaises(Refused, guard.loads, data)  # only Python 2 has that module


class Noting(Guard):
    """A guard that notes what it loads itself."""

    __slots__ = ("noted",)

    def _loads_accepted(self, data, *more):
        self.noted.append(data)
        return super()._loads_accepted(data, *more)


class Substitutes(unittest.TestCase):
    """Under a list with substitutes."""

    LENGTH = b"c__builtin__\nbytearray\n(I5\ntR."
    """A call that no pickler writes: the zeros could take all memory."""

    def setUp(self):
        self.guard = Noting(AllowList([("__builtin__", "bytearray"), ("builtins", "bytearray")]))
        self.guard.noted = []

    def test_what_imports_nothing_is_loaded_at_once(self):
        value = [1, 2.5, "a", None, {"k": (1,)}]
        for data in (*(pickle.dumps(value, it) for it in range(6)), LARGE, b"N."):
            self.assertEqual(self.guard.loads(data), pickle.loads(data))
        self.assertEqual(self.guard.noted, [])
        for data in (b"Pid\n.", b"\x97.", b"(NNo.", b"NN\x81.", b"}(NNub."):
            with self.subTest(data=data), self.assertRaises((pickle.UnpicklingError, TypeError)):
                self.guard.loads(data)
        self.assertEqual(self.guard.noted, [])

    def test_what_imports_something_is_loaded_through_substitutes(self):
        data = pickle.dumps(bytearray(b"abc"), 4)
        self.assertEqual(self.guard.loads(data), b"abc")
        self.assertEqual(self.guard.noted, [data])
        data = self.LENGTH.replace(b"__builtin__", b"builtins")
        self.assertEqual(pickle.loads(data), bytearray(5))
        self.assertRaises(Misused, self.guard.loads, data)

    def test_what_is_refused_and_loaded_is_loaded_through_substitutes(self):
        told = []
        reporting = self.guard.like(on_refusal=told.append, enforce=False)
        reporting.noted = []
        data = b"ccollections\ndeque\n0" + self.LENGTH.replace(b"__builtin__", b"builtins")
        self.assertEqual(pickle.loads(data), bytearray(5))
        self.assertRaises(Misused, reporting.loads, data)
        self.assertEqual([it.enforced for it in told[:1]], [False])
        self.assertEqual(reporting.noted, [data])

    def test_an_extension_code_is_an_import(self):
        copyreg.add_extension("posix", "system", 240)
        try:
            self.assertIs(pickle.loads(b"\x82\xf0."), os.system)
            self.assertRaises(Refused, self.guard.loads, b"\x82\xf0.")
        finally:
            copyreg.remove_extension("posix", "system", 240)


class Readers(unittest.TestCase):
    def test_one_that_is_written_in_python(self):
        said = python(
            "import pickle; kept, seen = pickle.loads, []\n"
            "def loads(data, **named):\n"
            "    seen.append((data, named)); return kept(data, **named)\n"
            "pickle.loads = loads\n"
            "import storklocker\n"
            "guard = storklocker.Guard(storklocker.AllowList([]))\n"
            "print(guard.loads(b'I7\\n.'), seen)\n"
            "try: guard.loads(b'cos\\nsystem\\n.')\n"
            "except storklocker.Refused: print(len(seen))"
        )
        self.assertEqual(said.split("\n")[:2], ["7 [(b'I7\\n.', {'fix_imports': False})]", "1"])


def outcome(call, *words):
    """What a call gives, or the type of what it raises."""
    try:
        return call(*words)
    except Exception as error:
        return type(error)


CASES = [
    (GUARD, SEEDS[4], list),
    (GUARD, HOSTILE, Refused),
    (GUARD, b"N.N.", MoreBytes),
    (GUARD, RAISING, TypeError),
    (GUARD, LARGE, list),
    (GUARD, bytearray(b"N."), type(None)),
    (REPORTING, b"N.N.", type(None)),
    (SUBSTITUTING, b"N.", type(None)),
]


class Memory(unittest.TestCase):
    @of_cpython
    def test_references(self):
        for guard, data, kind in CASES:
            held = [data, guard, pickle.loads, guard.list_for(False)]
            if sys.version_info < (3, 12):  # later they are immortal, and their counts may drift
                held += [None, False]
            found = outcome(guard.loads, data)
            self.assertTrue(found is kind or type(found) is kind, (data, found))
            gc.collect()
            before = [sys.getrefcount(it) for it in held]
            for _ in range(600):
                outcome(guard.loads, data)
            found = None
            gc.collect()
            for count, it in zip(before, held):
                # (that of None drifts by up to 200)
                self.assertLess(abs(sys.getrefcount(it) - count), 400, (it, data))

    @of_cpython
    def test_a_guard_and_its_list_are_collected(self):
        allow = AllowList(LISTED)
        storklocker.loads(b"N.", allow)  # the list keeps a guard, which has the list
        ends = [weakref.ref(allow), weakref.ref(allow.kept)]
        allow = None
        gc.collect()
        self.assertEqual([end() for end in ends], [None, None])

    @of_cpython
    def test_a_class_of_guards_is_collected(self):
        class Own(Guard):
            pass

        Own.kept = Own(BY_PAIRS)
        end = weakref.ref(Own)
        self.assertIsNone(Own.kept.loads(b"N."))
        Own = None
        gc.collect()
        self.assertIsNone(end())

    @of_cpython
    def test_no_collection_comes_while_plain_data_is_read(self):
        sets = b"](" + b"\x8f" * 20_000 + b"e."  # before 3.12, `pickle.loads` collects at every 700
        unhashable = b"](" + b"\x8f" * 20_000 + b"e0}]Ns."
        calls = {"bare": lambda: pickle.loads(sets), "guarded": lambda: GUARD.loads(sets)}
        calls["failing"] = lambda: outcome(GUARD.loads, unhashable)
        calls["imports"] = lambda: GUARD.loads(b"ccollections\ndeque\n0" + sets)
        told, counts = [], {}
        gc.callbacks.append(lambda phase, named: told.append(phase))
        try:
            for name, call in calls.items():
                gc.collect()
                del told[:]
                kept = call()
                counts[name] = told.count("start")
                self.assertTrue(gc.isenabled())
                del kept
        finally:
            gc.callbacks.pop()
        is_later = sys.version_info >= (3, 12)
        self.assertEqual([counts["bare"] > 9, counts["imports"] > 9], [not is_later] * 2)
        self.assertLessEqual(max(counts["guarded"], counts["failing"]), 1)
        self.assertIs(outcome(GUARD.loads, unhashable), TypeError)

    @of_cpython
    def test_collections_that_are_off_stay_off(self):
        gc.disable()
        try:
            self.assertEqual(GUARD.loads(LARGE), pickle.loads(LARGE))
            self.assertFalse(gc.isenabled())
        finally:
            gc.enable()

    def test_a_guard_that_begins_again_while_it_loads(self):
        guard, wrong, is_over = Guard(AllowList(LISTED)), [], threading.Event()

        def work():
            while not is_over.is_set():
                if len(guard.loads(LARGE)) != 9_000 or outcome(guard.loads, HOSTILE) is not Refused:
                    wrong.append(True)

        threads = [threading.Thread(target=work) for _ in range(3)]
        for thread in threads:
            thread.start()
        for number in range(300):
            guard.__init__(AllowList([*LISTED, ("a", str(number))]))
        is_over.set()
        for thread in threads:
            thread.join()
        self.assertEqual(wrong, [])


if __name__ == "__main__":
    sys.exit(unittest.main())

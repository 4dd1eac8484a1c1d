"""The reader in C of most pickles with objects: what it decides by itself, and what it leaves."""

import collections
import decimal
import gc
import pathlib
import pickle
import sys
import types
import unittest
import uuid
import weakref

from storklocker import AllowList, Guard, Misused, _judging

HERE = "judged_program"
SHELF = []


class Job:
    """Has attributes."""


class Stated:
    """Takes its state itself."""

    def __setstate__(self, state):
        self.__dict__.update(state, taken=True)


class Known:
    """Is known to a weak reference as soon as it is made."""

    def __new__(cls):
        made = super().__new__(cls)
        SHELF.append(weakref.ref(made))
        return made


class Shared:
    """Is always the same object."""

    only = None

    def __new__(cls):
        cls.only = cls.only or super().__new__(cls)
        return cls.only


class Lent:
    """Has the attributes of all others."""

    shared = {}

    def __new__(cls):
        made = super().__new__(cls)
        made.__dict__ = cls.shared
        return made


NAMES = [(HERE, it.__name__) for it in (Job, Stated, Known, Shared, Lent)]
NAMES += [("collections", it) for it in ("OrderedDict", "defaultdict", "deque", "Counter")]
NAMES += [("decimal", "Decimal"), ("uuid", "UUID"), ("uuid", "SafeUUID"), ("builtins", "int")]
NAMES += [(it, "PurePosixPath") for it in ("pathlib", "pathlib._local")] + [("builtins", "list")]


def text(word):
    return b"\x8c" + bytes([len(word)]) + word.encode()


def name(word, module=HERE):
    return text(module) + text(word) + b"\x93"


def whole(*instructions):
    return b"\x80\x04" + b"".join(instructions) + b"."


def state(**named):
    return b"}(" + b"".join(text(key) + it for key, it in named.items()) + b"ub"


NEW = b")\x81"


class Noting(Guard):
    """Notes what it doesn't load in C."""

    __slots__ = ("noted",)

    def _loads_accepted(self, data, *more):
        self.noted.append(data)
        return super()._loads_accepted(data, *more)


class Case(unittest.TestCase):
    def setUp(self):
        module = types.ModuleType(HERE)
        for it in (Job, Stated, Known, Shared, Lent):
            setattr(module, it.__name__, it)
            it.__module__, it.__qualname__ = HERE, it.__name__
        sys.modules[HERE] = module
        self.addCleanup(sys.modules.pop, HERE, None)
        self.guard = Noting(AllowList(NAMES))
        self.guard.noted = []
        self.guard.loads(pickle.dumps(uuid.UUID(int=1)))  # (the first load finds out how)
        self.guard.noted.clear()


@unittest.skipIf(_judging.JUDGES is None, "the module counts no references")
class Quick(Case):
    def test_what_needs_no_python(self):
        job, stated = Job(), Stated()
        job.a, job._b, job.me, stated.b = 1, [2], job, {}
        values = [job, stated, decimal.Decimal("1.5"), uuid.UUID(int=7)]
        values += [pathlib.PurePosixPath("a", "b"), collections.deque([1, 2], 3)]
        values += [collections.OrderedDict(a=1), collections.defaultdict(int, a=1)]
        values += [collections.defaultdict(list), [job, job, stated], {"a": int, "b": list}]
        for value in values:
            for protocol in (3, 4, 5):
                data = pickle.dumps(value, protocol)
                with self.subTest(value=value, protocol=protocol):
                    found = pickle.dumps(self.guard.loads(data), 4)
                    self.assertEqual(found, pickle.dumps(pickle.loads(data), 4))
        self.assertEqual([data for data in self.guard.noted if b"deque" not in data], [])

    def test_what_a_substitute_judges_is_left_to_it(self):
        few, many = b"(" + b"K\1" * 2 + b"t", text("1" * 101)
        calls = {
            "a number": name("Decimal", "decimal") + b"K\5\x85R",
            "a long text": name("Decimal", "decimal") + many + b"\x85R",
            "two texts": name("Decimal", "decimal") + text("1") + b"N\x86R",
            "bytes": name("Decimal", "decimal") + b"C\x011\x85R",
            "pairs": name("OrderedDict", "collections") + b"]\x85R",
            "NEWOBJ with a number": name("int", "builtins") + b"K\5\x85\x81",
            "OBJ": b"(" + name("int", "builtins") + b"o",
            "a row": name("list", "builtins") + few + b"\x85R",
        }
        for what, body in calls.items():
            with self.subTest(what=what):
                self.guard.noted.clear()
                try:
                    self.guard.loads(whole(body))
                except (Misused, TypeError):
                    pass
                self.assertEqual(self.guard.noted, [whole(body)])
        plain = whole(name("Decimal", "decimal") + text("1") + b"\x85R")
        self.guard.noted.clear()
        self.assertEqual(self.guard.loads(plain), 1)
        self.assertEqual(self.guard.noted, [])

    def test_a_mixture_is_judged_throughout(self):
        data = whole(b"(", name("UUID", "uuid"), NEW, name("int", "builtins"),
                     name("Decimal", "decimal"), b"K\5\x85Rt")
        made = self.guard.loads(data)
        self.assertEqual((type(made[0]), *made[1:]), (uuid.UUID, int, 5))
        self.assertEqual(self.guard.noted, [data])

    def test_what_stops_it_is_told(self):
        told, data = [], whole(name("Shared"), NEW, state(a=b"K\1"))
        guard = self.guard.like(on_refusal=told.append)
        guard.noted = []
        pickle.loads(data)
        for count in (1, 2, 3):
            with self.assertRaises(Misused) as raised:
                guard.loads(data)
            self.assertEqual([it.misused for it in told], count * [str(raised.exception)])
            self.assertEqual(told[-1].size, len(data))
        self.assertEqual(len(guard.noted), 1)
        error = KeyError("its own")

        def stop(refusal):
            raise error

        with self.assertRaises(KeyError) as raised:
            guard = guard.like(on_refusal=stop)
            guard.noted = []
            guard.loads(whole(name("Job"), NEW, state(a=b"N")))
            guard.loads(data)
        self.assertIs(raised.exception, error)
        self.assertIsInstance(error.__context__, Misused)

    def test_a_class_that_changes(self):
        data = whole(name("Job"), NEW, state(a=b"K\1"))
        self.assertEqual(vars(self.guard.loads(data)), {"a": 1})
        taken = []
        Job.__setstate__ = lambda self, state: taken.append(state)
        try:
            self.assertEqual(vars(self.guard.loads(data)), {})
            self.assertEqual(taken, [{"a": 1}])
        finally:
            del Job.__setstate__
        self.assertEqual(vars(self.guard.loads(data)), {"a": 1})

    def test_a_base_that_changes(self):
        class Base:
            pass

        derived = type("Derived", (Base,), {"__module__": HERE})
        sys.modules[HERE].Job = derived
        data = whole(name("Job"), NEW, state(a=b"K\1"))
        self.assertEqual(vars(self.guard.loads(data)), {"a": 1})
        Base.__setstate__ = lambda self, state: None
        self.assertEqual(vars(self.guard.loads(data)), {})

    def test_classes_that_come_and_go(self):
        data = whole(name("Job"), NEW, state(a=b"K\1"))
        for number in range(2000):
            body = {"__module__": HERE}
            if number % 2:
                body["__setstate__"] = lambda self, state: vars(self).update(b=2)
            sys.modules[HERE].Job = type("Job", (), body)
            self.assertEqual(vars(self.guard.loads(data)), {"b": 2} if number % 2 else {"a": 1})
            body.clear()
        gone = weakref.ref(sys.modules[HERE].Job)
        sys.modules[HERE].Job = None
        gc.collect()
        self.assertIsNone(gone())

    def test_what_it_does_not_take(self):
        from storklocker import _storklocker

        for given in ((), (None, []), (object(), [(b"N.", 0, 2)]), (_judging.JUDGES, None)):
            with self.subTest(given=given), self.assertRaises((TypeError, ValueError)):
                _storklocker.judged(*given)
        with self.assertRaises(TypeError):
            _storklocker.begin_judges(1)
        for pieces in ([], [(b"N", 0, 1)], [(b"N.", 1, 1)]):
            with self.subTest(pieces=pieces), self.assertRaises((EOFError, IndexError)):
                _storklocker.judged(_judging.JUDGES, pieces)


class Owners(Case):
    """What the reader in C finds out about new objects, as that in Python does."""

    @unittest.skipUnless(sys.implementation.name == "cpython", "references aren't counted")
    def test_what_others_have_too(self):
        for word in ("Known", "Shared", "Lent"):
            for body in (NEW, b")R"):
                data = whole(name(word), body, state(a=b"K\1"))
                pickle.loads(data)
                Shared.only = None if word != "Shared" else Shared.only
                with self.subTest(word=word), self.assertRaises(Misused):
                    self.guard.loads(data)
        SHELF.clear()
        Lent.shared.clear()

    def test_names_with_a_meaning(self):
        for word, value in (("__class__", name("Stated")), ("__", b"N"), ("__len__", b"N")):
            data = whole(name("Job"), NEW, state(**{"a": b"K\1", word: value}))
            with self.subTest(word=word), self.assertRaises(Misused):
                self.guard.loads(data)
        for word in ("_", "_a", "__a", "a__", "___a", "__doc__", "\u00e9", ""):
            key = b"\x8c" + bytes([len(word.encode())]) + word.encode()
            data = whole(name("Job"), NEW, b"}", key, text("a"), b"sb")
            self.assertEqual(vars(self.guard.loads(data)), vars(pickle.loads(data)))

    def test_a_state_that_is_no_dict_of_texts(self):
        for body in (b"K\1b", b"]b", b"}K\1K\1sb", b"N}" + text("a") + b"K\1s\x86b"):
            data = whole(name("Job"), NEW, body)
            try:
                wanted = vars(pickle.loads(data))
            except Exception as error:
                with self.subTest(body=body), self.assertRaises(type(error)):
                    self.guard.loads(data)
            else:
                self.assertEqual(vars(self.guard.loads(data)), wanted)

    def test_an_error_of_the_program_is_raised(self):
        def fails(self, state):
            raise KeyError("its own")

        Stated.__setstate__, before = fails, Stated.__setstate__
        try:
            with self.assertRaisesRegex(KeyError, "its own"):
                self.guard.loads(whole(name("Stated"), NEW, state(a=b"N")))
        finally:
            Stated.__setstate__ = before

    def test_names_that_share_bytes(self):
        """The numbers of names are remembered by instructions, which could be read otherwise."""
        first = text("decimal") + b"\x94" + text("Decimal") + b"\x93"
        second = text("decimal") + text("Decimal") + b"\x93"
        third = text("decimal") + b"N0" + text("Decimal") + b"\x93"
        for spelled in (first, second, third, b"cdecimal\nDecimal\n"):
            for _ in range(3):
                self.assertEqual(self.guard.loads(whole(spelled, text("2"), b"\x85R")), 2)
                with self.assertRaises(Misused):
                    self.guard.loads(whole(spelled, b"\x8b", (1 << 15).to_bytes(4, "little"),
                                           b"\x7f" * (1 << 15), b"\x85R"))


if __name__ == "__main__":
    unittest.main()

"""Names with substitutes as values: the real object, or a refusal before anything is loaded."""

import collections
import functools
import gc
import io
import pickle
import random
import sys
import types
import unittest

import storklocker
from storklocker import AllowList, Guard, Misused, substitutes
from storklocker._storklocker import begin_uses, uses
from storklocker._substitute import Substitute

HERE = "test_uses"
DONE = []


def note(it):
    """Tells that a pickle is loaded."""
    DONE.append(it)
    return it


class Kept:
    """Has a state."""


class Taking:
    """Takes its state itself."""

    def __setstate__(self, state):
        self.__dict__.update(state)


class Bytes(bytearray):
    """Is made by `copyreg._reconstructor` in old protocols."""


LISTED = [
    *(("builtins", name) for name in ("bytes", "bytearray", "set", "frozenset", "getattr")),
    *(("collections", name) for name in ("defaultdict", "OrderedDict")),
    *(("copyreg", "_reconstructor"), ("_codecs", "encode"), ("functools", "partial")),
    *(("builtins", "object"), (HERE, "note"), (HERE, "Kept"), (HERE, "Taking"), (HERE, "Bytes")),
]
SAID = {
    ("builtins", "getattr"): substitutes.getattr({Kept: ["value"]}),
    ("functools", "partial"): substitutes.partial({bytearray: [], note: []}),
}
GUARD = Guard(AllowList(LISTED, substitutes=SAID), fix_imports=True)


def text(word):
    return b"\x8c" + bytes([len(word)]) + word.encode()


def name(module, word):
    return text(module) + text(word) + b"\x93"


BYTEARRAY, GETATTR = name("builtins", "bytearray"), name("builtins", "getattr")


def every_way(guard):
    return (
        guard.loads,
        lambda it: guard.load(io.BytesIO(it)),
        lambda it: guard.Unpickler(io.BytesIO(it)).load(),
    )


def kept(of, **state):
    made = of()
    made.__dict__.update(state)
    return made


def substitutes_in(value):
    """The substitutes that can be reached from a value."""
    seen, left, found = set(), [value], []
    skipped = (type, types.ModuleType, types.FunctionType, types.BuiltinFunctionType)
    while left:
        it = left.pop()
        if isinstance(it, Substitute):
            found.append(it)
        elif id(it) not in seen and not isinstance(it, skipped):
            seen.add(id(it))
            left.extend(gc.get_referents(it))
    return found


class Values(unittest.TestCase):
    def test_classes_whose_calls_do_no_harm(self):
        made = collections.defaultdict(bytearray)
        made["a"] += b"xy"
        values = (
            *(bytes, [bytearray, bytearray(b"a"), bytearray], {"kind": bytes, bytes: (bytearray,)}),
            *(made, {bytes, bytearray}, frozenset([bytes]), (1, (bytes, [bytearray]))),
            *(kept(Kept, kind=bytes, empty=b""), kept(Taking, kind=bytearray)),
            *(functools.partial(bytearray), functools.partial(note, bytes), Bytes(b"x")),
        )
        for value in values:
            for protocol in range(6):
                data = pickle.dumps(value, protocol)
                for load in every_way(GUARD):
                    with self.subTest(value=value, protocol=protocol):
                        found = load(data)
                        wanted = pickle.dumps(pickle.loads(data), 4)
                        self.assertEqual(pickle.dumps(found, 4), wanted)
                        self.assertEqual(substitutes_in(found), [])
        found = GUARD.loads(pickle.dumps(made))
        found["new"].append(1)
        self.assertEqual(found["new"], bytearray(b"\1"))

    def test_other_names_are_refused_before_anything_is_loaded(self):
        first = name(HERE, "note") + b"K\1\x85R0"
        at = len(first) + 2
        for shape in ("%s", "]%sa", "](%se", "(%sl", "}K\1%ss", "}(K\1%su", "(K\1%sd", "}%sK\1s",
                      "%s\x85", "K\1%s\x86", "K\1K\1%s\x87", "(%st", "\x8f(%s\x90", "(%s\x91",
                      "K\1%s\x85\x86", "]%s\x85a", "N%sb"):
            before, after = shape.encode("latin-1").split(b"%s")
            data = b"\x80\x04" + first + before + GETATTR + after + b"."
            for load in every_way(GUARD):
                DONE.clear()
                with self.subTest(shape=shape), self.assertRaises(Misused) as raised:
                    load(data)
                place = at + len(before) + len(GETATTR) - 1
                self.assertEqual(
                    str(raised.exception),
                    f"builtins.getattr is a value at byte {place}: it is loaded through a"
                    " substitute, which can be called, but not kept in the loaded object",
                )
                self.assertEqual(DONE, [])
            plain = Guard(AllowList(LISTED[3:], dangerous=SAID))
            plain.loads(data) if shape != "N%sb" else None  # (the control)
            self.assertEqual(len(DONE), shape != "N%sb")

    def test_a_name_that_becomes_real_is_still_not_called_freely(self):
        hostile = (
            b"h\0",  # from the memo
            b"N0q\1h\1",  # memoized later
            b"2",  # a copy
            b"0h\x002",
            b"0h\x00N0q\1h\1",
            b"0h\0q\1q\2h\2",
        )
        for body in hostile:
            data = b"\x80\x04(" + BYTEARRAY + b"q\0" + body + b"K\5\x85Rt."
            with self.subTest(body=body):
                self.assertTrue(GUARD.check(data), GUARD.check(data))
                with self.assertRaises(Misused):
                    GUARD.loads(data)
        data = b"\x80\x04(" + BYTEARRAY + b"K\5o."
        with self.assertRaises(Misused):
            GUARD.loads(data)

    def test_rows_of_one_unpickler(self):
        file = io.BytesIO()
        pickler = pickle.Pickler(file, 4)
        row = [[bytearray, 1], bytearray, {"a": bytearray(b"x"), "b": bytearray}, [bytes]]
        for value in row:
            pickler.dump(value)
        unpickler = GUARD.Unpickler(io.BytesIO(file.getvalue()))
        for value in row:
            self.assertEqual(unpickler.load(), value)
        if hasattr(pickle.Unpickler, "memo"):
            self.assertIn([bytes], unpickler.memo.values())
            self.assertEqual(substitutes_in(unpickler.memo), [])
        data = b"\x80\x04" + GETATTR + b"\x940N.\x80\x04]h\0a."
        unpickler = GUARD.Unpickler(io.BytesIO(data))
        self.assertIsNone(unpickler.load())
        with self.assertRaisesRegex(Misused, "builtins.getattr is a value at byte "):
            unpickler.load()

    def test_an_installed_guard_tells_of_no_name_with_a_substitute(self):
        told = []
        with storklocker.installed(GUARD.like(on_refusal=told.append)):
            made = pickle.loads(pickle.dumps(functools.partial(note, bytes)))
        self.assertIs(made(), bytes)
        self.assertEqual(told, [])

    def test_what_is_not_enforced(self):
        told = []
        guard = GUARD.like(enforce=False, on_refusal=told.append)
        self.assertEqual(guard.loads(pickle.dumps([bytearray, storklocker.Limits])),
                         [bytearray, storklocker.Limits])
        with self.assertRaises(Misused):
            guard.loads(b"\x80\x04]" + GETATTR + b"a.")
        self.assertIn("is a value", told[-1].misused)


class Random(unittest.TestCase):
    """Random pickles: what is loaded is what `pickle` loads, and no substitute is in it."""

    def test_it(self):
        loaded = refused = 0
        for seed in range(4000):
            writer = Writer(seed)
            data = b"\x80\x04" + writer.value(4) + b"."
            self.assertTrue(GUARD.check(data), data)
            for load in every_way(GUARD)[::2]:
                try:
                    found = load(data)
                except Misused:
                    self.assertTrue(writer.is_odd, data)
                    refused += 1
                    continue
                self.assertFalse(writer.is_hostile, data)
                self.assertEqual(repr(found), repr(pickle.loads(data)), data)
                self.assertEqual(substitutes_in(found), [], data)
                loaded += 1
        self.assertGreater(loaded, 2000)
        self.assertGreater(refused, 200)


class Writer:
    """Writes a random value, as no pickler does."""

    NAMES = ("bytes", "bytearray", "bytearray", "set")

    def __init__(self, seed):
        self.chance = random.Random(seed)
        self.memo = []
        self.is_hostile = self.is_odd = False

    def put(self, written, what):
        """Memoizes at times, at once or later."""
        way = self.chance.randrange(20)
        self.is_odd |= way < 2 and what in self.NAMES
        if way < 10:
            number = len(self.memo)
            self.memo.append(what)
            return written + (b"N0" if way == 0 else b"") + b"q" + bytes([number])
        return written + (b"20" if way == 1 else b"")

    def name(self, word=None):
        word = word or self.chance.choice(self.NAMES)
        known = [k for k, what in enumerate(self.memo) if what == word]
        if known and self.chance.random() < 0.6:
            return b"h" + bytes([self.chance.choice(known)])
        return self.put(name("builtins", word), word)

    def value(self, depth):
        if len(self.memo) > 200 or depth == 0:
            return self.chance.choice((b"K\1", b"N", b"\x88", text("a"), b"C\1a"))
        kind = self.chance.randrange(9)
        if kind < 2:
            if self.chance.random() < 0.03:
                self.is_odd = True
                return self.name("getattr")
            return self.name()
        if kind == 2:
            word, harm = self.chance.choice(("bytes", "bytearray")), self.chance.random() < 0.02
            self.is_hostile |= harm
            self.is_odd |= harm
            return self.name(word) + (b"K\5" if harm else b"C\2xy") + b"\x85R"
        if kind == 3:
            return name("collections", "defaultdict") + self.name("bytearray") + b"\x85R"
        if kind == 7:
            of = name(HERE, self.chance.choice(("Kept", "Taking")))
            return of + b")\x81}" + text("a") + self.value(depth - 1) + b"sb"
        shared = [k for k, what in enumerate(self.memo) if what in ("list", "dict", "tuple")]
        if kind == 8 and shared:
            return b"h" + bytes([self.chance.choice(shared)])
        parts = [self.value(depth - 1) for _ in range(self.chance.randrange(4))]
        if kind == 4:
            return self.put(b"](" + b"".join(parts) + b"e", "list")
        if kind == 5:
            keys = [text(f"k{k}") for k in range(len(parts))]
            return self.put(b"}(" + b"".join(k + v for k, v in zip(keys, parts)) + b"u", "dict")
        return self.put(b"(" + b"".join(parts) + b"t", "tuple")


def repr_of(it):
    return f"{type(it).__name__}({it.__dict__!r})"


Kept.__repr__ = Taking.__repr__ = repr_of


class Follows(unittest.TestCase):
    def test_any_bytes(self):
        chance = random.Random(5)
        codes = b"(012.NK}])tldusaebRQoi\x81\x92\x93\x85\x86\x87\x90\x91\x94\x8fqhjrgpcSVX\x8c"
        for _ in range(20_000):
            data = bytes(chance.choices(codes if chance.random() < 0.8 else range(256),
                                        k=chance.randrange(60)))
            pieces, is_whole, number, place, _ = uses(
                begin_uses(), data, 0,
                lambda *given: 1 + chance.choice((0, 1, 2, 4, 8, 16)) * 1024,
                chance.random() < 0.5,
            )
            self.assertTrue(all(0 <= begin < end <= len(of) for of, begin, end in pieces))
            self.assertLess(place, len(data))
            self.assertLess(is_whole, 2)
            self.assertLess(number, 2)

    def test_what_it_does_not_take(self):
        kept_ = begin_uses()
        for given in ((kept_, bytearray(b"N."), 0, len, False), (None, b"N.", 0, len, False),
                      (kept_, b"N."), (kept_, "N.", 0, len, False)):
            with self.subTest(given=given), self.assertRaises((TypeError, ValueError)):
                uses(*given)
        self.assertEqual(uses(kept_, b"N.", -1, len, False), ([], False, 0, -1, 2))
        self.assertEqual(uses(kept_, b"N.", 5, len, False), ([], False, 0, -1, 2))
        with self.assertRaises(ZeroDivisionError):
            uses(kept_, b"ca\nb\n.", 0, lambda *given: 1 // 0, False)

    def test_a_value_of_another_pickle_does_not_become_real(self):
        """In these bytes something else stands where it was pushed, or they end before."""
        first = b"}q\0K\1" + b"N0" * 500 + b"ca\nb\nsN."
        for second in (b"h\0.", b"N" * 2000 + b"h\0."):
            kept_ = begin_uses()
            number_of = lambda *given: 1 + 3 * 1024  # (two roles, which no name has at once)
            self.assertEqual(uses(kept_, first, 0, number_of, False)[1:], (True, 0, -1, 2))
            told = uses(kept_, second, 0, number_of, False)
            self.assertEqual(told, ([], False, 1, len(first) - 8, 2))
            told = uses(kept_, first + second, len(first), number_of, False)
            self.assertEqual(told, ([], False, 1, len(first) - 8, 2))

    @unittest.skipIf(sys.implementation.name == "pypy", "PyPy shows no such lists")
    def test_places_that_are_changed_meanwhile(self):
        data = b"](" + b"N" * 777 + b"ca\nb\neca\nc\na."
        real_at = data.index(b"\nec") + 1
        for places in ([-1], [1 << 70], [len(data) + 1], ["a"], [0] * 9000, [real_at - 1, 5]):
            told = []

            def number_of(module, name):
                told.extend(it for it in gc.get_objects() if type(it) is list and it == [real_at])
                for it in told:
                    it[:] = places
                return 1 + 1024

            with self.subTest(places=places[:3]):
                if len(places) == 1:
                    with self.assertRaises((ValueError, TypeError, OverflowError)):
                        uses(begin_uses(), data, 0, number_of, False)
                else:
                    [(of, begin, end)] = uses(begin_uses(), data, 0, number_of, False)[0]
                    self.assertEqual(end - begin, len(data) + 4 * (1 + len(places)))
                self.assertEqual(len(told), 1)


if __name__ == "__main__":
    sys.exit(unittest.main())

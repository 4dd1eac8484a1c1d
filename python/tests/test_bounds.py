"""What a stranger's pickle may cost a guard, and what it can't change: memo, lists, reports."""

import gzip
import io
import pickle
import struct
import sys
import tracemalloc
import unittest

import storklocker
from common import BY_PAIRS, python
from storklocker import AllowList, Guard, Misused, Reason, Refused
from streams import Piped

NOTHING = Guard(AllowList([]))


def peak(call):
    """The most bytes that Python allocates during a call."""
    tracemalloc.start()
    try:
        call()
        return tracemalloc.get_traced_memory()[1]
    finally:
        tracemalloc.stop()


class Streams(unittest.TestCase):
    def test_a_stream_that_is_refused_at_its_first_instruction(self):
        data = b"cos\nsystem\n" + b"K\x010" * 1_000_000
        ahead = max(1 << 16, io.DEFAULT_BUFFER_SIZE)  # what a file itself reads ahead
        for file in (
            io.BufferedReader(Piped(data, 1 << 16)),
            Piped(data, 1 << 16),
            gzip.GzipFile(fileobj=io.BytesIO(gzip.compress(data))),
        ):
            with self.subTest(file=file), self.assertRaises(Refused) as raised:
                NOTHING.load(file)
            self.assertEqual(raised.exception.pair, ("os", "system"))
            self.assertLessEqual(file.tell() if isinstance(file, gzip.GzipFile) else 0, ahead)

    def test_a_stream_that_never_ends_takes_its_bytes_and_little_more(self):
        data = b"K\x010" * 1_000_000
        file = gzip.GzipFile(fileobj=io.BytesIO(gzip.compress(data)))
        most = peak(lambda: self.assertRaises(Refused, NOTHING.load, file))
        self.assertLess(most, 6 * len(data))

    def test_what_follows_is_left(self):
        data = pickle.dumps([{"n": k} for k in range(3000)], 4)
        for file in (
            io.BufferedReader(Piped(data + b"rest", 777)),
            gzip.GzipFile(fileobj=io.BytesIO(gzip.compress(data + b"rest"))),
        ):
            self.assertEqual(NOTHING.load(file), pickle.loads(data))
            self.assertEqual(file.read(), b"rest")

    def test_max_bytes(self):
        data = pickle.dumps("a" * 5000, 4)
        exact, less = (
            Guard(AllowList([]), max_bytes=most) for most in (len(data), len(data) - 1)
        )
        for make in (
            io.BytesIO,
            Piped,
            lambda it: io.BufferedReader(io.BytesIO(it)),
            lambda it: io.BufferedReader(Piped(it)),
        ):
            for call in (lambda guard, it: guard.load(it), lambda g, it: g.Unpickler(it).load()):
                self.assertEqual(call(exact, make(data + b"more")), "a" * 5000)
                with self.assertRaises(Refused) as raised:
                    call(less, make(data + b"more"))
                self.assertIs(raised.exception.reason, Reason.TooLarge)
        self.assertEqual(less.loads(data), "a" * 5000)
        self.assertEqual(pickle.loads(pickle.dumps(less)).max_bytes, len(data) - 1)
        told = []
        open_ = Guard(AllowList([]), max_bytes=10, enforce=False, on_refusal=told.append)
        self.assertEqual(open_.load(Piped(data)), "a" * 5000)
        self.assertEqual([it.verdict.reason for it in told], [Reason.TooLarge])
        for given, error in ((-1, ValueError), ("1", TypeError), (None, TypeError)):
            with self.assertRaises(error):
                Guard(AllowList([]), max_bytes=given)


class Memo(unittest.TestCase):
    NAMES = b"\x80\x04\x8c\x05posixq\x000\x8c\x06getpidq\x01."
    ROW = (
        b"\x80\x04\x8c\x0bcollectionsq\x000\x8c\x0bOrderedDictq\x01."
        b"\x80\x04h\x00h\x01\x93."
    )

    def test_it_cannot_be_changed(self):
        seen = []
        other = pickle.Unpickler(io.BytesIO(self.NAMES))
        other.load()
        # the control: with pickle's own reader the second pickle imports what the memo names
        plain = type("Own", (pickle.Unpickler,), {"find_class": lambda _, *pair: seen.append(pair)})
        reader = plain(io.BytesIO(self.ROW))
        reader.load()
        reader.memo = other.memo
        reader.load()
        self.assertEqual(seen, [("posix", "getpid")])
        for allow in (BY_PAIRS, BY_PAIRS | AllowList([("numpy", "dtype")])):
            reader = Guard(allow).Unpickler(io.BytesIO(self.ROW))
            reader.load()
            with self.assertRaises(AttributeError):
                reader.memo = other.memo
            self.assertEqual(reader.memo, {0: "collections", 1: "OrderedDict"})
            reader.memo.clear()
            self.assertEqual(reader.load().__name__, "OrderedDict")


class Lists(unittest.TestCase):
    def test_a_subclass_with_attributes_of_its_own(self):
        said = python(
            "import storklocker\n"
            "class L(storklocker.AllowList):\n    _held = ()\n    _pairs = ()\n"
            "made = L([('a', 'b')])\n"
            "print(storklocker.check(b'cos\\nsystem\\n.', made))\n"
            "print(storklocker.check(b'ca\\nb\\n.', made))"
        )
        self.assertEqual(
            said.splitlines(), ['no at 0: ImportOffList("os","system")', "yes: 6 bytes, 1 imports"]
        )

    def test_only_the_module_makes_pairs(self):
        from storklocker import _storklocker

        for call in (
            lambda: _storklocker.Pairs((), b""),
            lambda: object.__new__(AllowList),
            lambda: _storklocker.pairs_of(tuple, (), b""),
            lambda: _storklocker.pairs_of(5, (), b""),
        ):
            with self.assertRaises(TypeError):
                call()


def long_names(count, size):
    """A pickle that imports as many names of one module, whose name is long."""

    def text(word):
        return b"X" + struct.pack("<I", len(word)) + word

    parts = [b"h\x00" + text(b"%d" % number) + b"\x930" for number in range(count)]
    return b"\x80\x02" + text(b"m" * size) + b"q\x000" + b"".join(parts) + b"N."


class Missing(unittest.TestCase):
    def test_a_text_that_comes_again_is_kept_once(self):
        verdict = storklocker.check(long_names(100, 100_000), AllowList([]))
        found = verdict.missing
        self.assertEqual([it.name for it in found], [str(number) for number in range(100)])
        self.assertEqual(len({id(it.module) for it in found}), 1)
        self.assertFalse(verdict.missing_is_cut)

    def test_names_of_more_than_64_mib(self):
        data = long_names(1000, 1_000_000)
        verdict = storklocker.check(data, AllowList([]))
        self.assertLess(peak(lambda: verdict.missing), 64 << 20)
        self.assertTrue(verdict.missing_is_cut)
        self.assertEqual([it.name for it in verdict.missing][:3], ["0", "1", "2"])
        self.assertTrue(pickle.loads(pickle.dumps(verdict)).missing_is_cut)
        listed = AllowList([("m" * 1_000_000, "0")])
        self.assertEqual(storklocker.check(data, listed).missing[0].name, "1")


class Substitutes(unittest.TestCase):
    """Those that need no NumPy."""

    GUARD = Guard(
        AllowList(
            {
                "builtins": ["bytearray", "bytes", "object"],
                "copyreg": ["_reconstructor"],
                "_codecs": ["encode"],
                "test_bounds": ["Own", "Kept"],
            }
        ),
        fix_imports=True,
    )

    def test_what_picklers_write(self):
        for value in (bytearray(b"ab"), bytearray(), b"\xff", b"", Own(b"ab"), Kept(1), Kept(None)):
            for protocol in range(6):
                data = pickle.dumps(value, protocol)
                found = self.GUARD.loads(data)
                self.assertEqual((type(found), found), (type(value), value))
                reader = self.GUARD.Unpickler(io.BytesIO(data))
                self.assertEqual(reader.load(), value)

    def test_persistent_ids(self):
        class Pickler(pickle.Pickler):
            def persistent_id(self, value):
                return {"two": (1, 2), "one": (1,)}.get(value if type(value) is str else "")

        class Reader(self.GUARD.Unpickler):
            def persistent_load(self, number):
                return ["kept", number]

        for protocol in range(1, 6):  # (those of protocol 0 are text)
            out = io.BytesIO()
            Pickler(out, protocol).dump(["two", "one", Kept(3)])
            reader = Reader(io.BytesIO(out.getvalue()))
            self.assertEqual(reader.load(), [["kept", (1, 2)], ["kept", (1,)], Kept(3)])
            with self.assertRaises(pickle.UnpicklingError):
                self.GUARD.loads(out.getvalue())

    def test_what_no_pickler_writes(self):
        large = b"\x8a\x05" + (10**10).to_bytes(5, "little") + b"\x85R."
        for pickled in (
            b"\x80\x03cbuiltins\nbytearray\n" + large,
            b"\x80\x03cbuiltins\nbytes\n" + large,
            b"\x80\x03c_codecs\nencode\n\x8c\x02\xc3\xa9\x8c\x04idna\x86R.",
        ):
            for load in (self.GUARD.loads, lambda it: self.GUARD.load(Piped(it))):
                with self.subTest(pickled=pickled), self.assertRaises(Misused):
                    load(pickled)

    def test_what_is_imported_stays_as_it_is(self):
        permitting = Guard(self.GUARD.allow, build="any")
        for pickled in (
            b"\x80\x03ctest_bounds\nOwn\n}\x8c\x01a\x8c\x01bsb.",
            b"\x80\x03cbuiltins\nbytes\n}\x8c\x01a\x8c\x01bsb.",
        ):
            for guard, error in ((self.GUARD, storklocker.Refused), (permitting, Misused)):
                for load in (guard.loads, lambda it: guard.load(Piped(it))):
                    with self.subTest(pickled=pickled), self.assertRaises(error):
                        load(pickled)
        self.assertNotIn("a", vars(Own))

    def test_states_are_set_as_pickle_sets_them(self):
        for body in (
            b"N}(\x8c\x01a\x8c\x01bu\x86b.",
            b"}\x8c\x01a\x8c\x01bsN\x86b.",
            b"Nb.",
            b"}b.",
            b"\x8c\x01ab.",
            b"N\x8c\x01a\x86b.",
            b"N]\x86b.",
        ):
            data = b"\x80\x03ctest_bounds\nKept\n)\x81" + body
            with self.subTest(body=body):
                self.assertEqual(outcome(self.GUARD.loads, data), outcome(pickle.loads, data))

    def test_nothing_is_left_to_the_garbage_collector(self):
        import gc

        data = pickle.dumps([bytearray(b"a"), Kept(1)], 4)
        self.GUARD.loads(data)
        gc.collect()
        gc.disable()
        try:
            self.GUARD.loads(data)
            self.assertEqual(gc.collect(), 0)
        finally:
            gc.enable()

    def test_a_large_payload_is_not_copied(self):
        data = pickle.dumps([bytes(8 << 20), Kept(1)], 4)
        self.GUARD.loads(data)
        self.assertLess(peak(lambda: self.GUARD.loads(data)), 9 << 20)


def outcome(load, data):
    """What a load gives, or the class of its error."""
    try:
        return vars(load(data))
    except Exception as error:
        return type(error)


class Own(bytearray):
    """A subclass of what has a substitute."""


class Kept:
    """Has a state."""

    def __init__(self, value):
        self.value = value

    def __eq__(self, other):
        return vars(self) == vars(other)


if __name__ == "__main__":
    sys.exit(unittest.main())

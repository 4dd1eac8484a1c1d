"""What a call answers costs as much as a key as what it was called with: it may hold that."""

import collections
import io
import pickle
import signal
import subprocess
import sys
import unittest

import storklocker
from storklocker import AllowList, Limits, Reason

NAMED = AllowList([("shapes", "Pair"), ("shapes", "Point")])
NOTHING = AllowList([])
PAIR = b"cshapes\nPair\nq\x000"
LOADS = """
import collections, pickle, sys, types
shapes = sys.modules["shapes"] = types.ModuleType("shapes")
shapes.Point = collections.namedtuple("Point", "x")
pickle.loads(sys.stdin.buffer.read())
"""
"""A program that loads a pickle of named tuples without asking."""


class Visited:
    """A part of a key that counts how often it is hashed."""

    times = 0

    def __hash__(self):
        Visited.times += 1
        return 7


class Naming(pickle.Unpickler):
    """Makes visited objects of persistent ids, and named tuples of names."""

    def persistent_load(self, name):
        return Visited()

    def find_class(self, module, name):
        return collections.namedtuple(name, "first second")


def doubled(times, leaf=b"Pleaf\n"):
    """A dict whose key is a pair of twice the same pair, and so on."""
    pair = b"h\x00h\x01h\x01\x86\x81q\x010"
    return b"}" + PAIR + leaf + b"q\x010" + times * pair + b"h\x01Ns."


def deep(levels):
    """A dict whose key is a named tuple of a named tuple, and so on."""
    name = b"cshapes\nPoint\nq\x000"
    return b"}" + name + levels * b"h\x00" + b")" + levels * b"\x85\x81" + b"Ns."


def twins(size, count):
    """A set that compares two buffers of this many equal bytes so often."""
    buffer = b"B" + size.to_bytes(4, "little") + bytes(size) + b"\x98"
    return b"\x8f(" + buffer + buffer + count * b"2" + b"\x90."


class AnswersAsKeys(unittest.TestCase):
    def assert_refused(self, data, reason, allow=NAMED, **limits):
        said = storklocker.check(data, allow, limits=Limits(**limits))
        self.assertEqual((said.at, said.reason), (len(data) - 2, reason))

    def test_pairs_that_are_doubled(self):
        for times in (1, 2, 3, 10):
            Visited.times = 0
            Naming(io.BytesIO(doubled(times))).load()
            self.assertEqual(Visited.times, 2**times, "the control: each pair asks both")
        self.assertTrue(storklocker.check(doubled(10), NAMED))
        self.assert_refused(doubled(26), Reason.HeavyKeys)
        unlimited = Limits(weight=None, work=None)
        self.assertTrue(storklocker.check(doubled(26), NAMED, limits=unlimited))

    def test_named_tuples_in_each_other(self):
        self.assert_refused(deep(1_000), Reason.DeepKey)
        self.assertTrue(storklocker.check(deep(300), NAMED))
        self.assertTrue(storklocker.check(deep(1_000), NAMED, limits=Limits(levels=None)))

    @unittest.skipUnless(sys.platform == "linux", "it needs a stack of a known size")
    def test_a_hash_that_ends_the_process(self):
        shell = ["sh", "-c", 'ulimit -s 8192 && exec "$@"', "sh"]
        loading = [*shell, sys.executable, "-c", LOADS]
        for levels, status in ((100, 0), (400_000, -signal.SIGSEGV)):
            ran = subprocess.run(loading, input=deep(levels), stderr=subprocess.DEVNULL)
            self.assertEqual(ran.returncode, status, "the control")
        self.assert_refused(deep(400_000), Reason.DeepKey)

    def test_buffers_that_are_compared(self):
        class Bytes(bytes):
            compared = 0

            def __eq__(self, other):
                Bytes.compared += 1
                return super().__eq__(other)

            __hash__ = bytes.__hash__

        first, second = Bytes(b"a"), Bytes(b"a")
        {first, *[second] * 100}
        self.assertEqual(Bytes.compared, 100, "the control: each compares with the other")
        self.assert_refused(twins(250_000, 500_000), Reason.HeavyKeys, allow=NOTHING)
        self.assertTrue(storklocker.check(twins(250_000, 10), NOTHING))

    def test_each_way_to_answer(self):
        few = Limits(levels=2, weight=None, work=None)
        for call in (
            PAIR + b"h\x00)\x85R",
            PAIR + b"h\x00)\x85\x81",
            PAIR + b"h\x00)\x85}\x92",
            PAIR + b"(h\x00)\x85o",
            b"()\x85ishapes\nPair\n",
            b")\x85Q",
        ):
            data = b"}" + call + b"Ns."
            said = storklocker.check(data, NAMED, limits=few)
            self.assertEqual(said.reason, Reason.DeepKey, data)
            self.assertTrue(storklocker.check(data, NAMED, limits=Limits(levels=3)), data)


if __name__ == "__main__":
    unittest.main()

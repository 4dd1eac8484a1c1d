"""The imports of a refused pickle are the names that CPython's reader asks for before it fails."""

import io
import pickle
import unittest

import storklocker
from storklocker import Refused
from storklocker._imports import imports_of
from storklocker._missing import imports_in
from storklocker._pairs import records

NOTHING = storklocker.AllowList([])
FRONTS = (
    b"",
    b"cos\nsystem\n0",
    b"cos\nsystem\n0cdatetime\ndate\n0cos\nsystem\n0",
    b"\x8c\x02os\x8c\x06system\x93\x940h\x00(Vecho\ntR0",
    b"\x80\x02(ios\nsystem\n0(cdatetime\ndate\nK\x01o0",
    b"\x80\x04\x95\x0b\0\0\0\0\0\0\0cos\nsystem\n0",
)
FAULTS = (
    b"",  # more bytes are needed
    b"ccollections\nOrder",
    b"X\x09\0\0\0short",
    b"\xff",  # no opcode
    b"Ix\n",
    b"\x80\x09.",
    b"0.",  # nothing to pop
    b"h\x07.",
    b"t.",
    b"K\x01\x94\x8c\x01a\x93.",  # a name that is no text
    b"K\x01K\x02a.",
    b"\x82\x01.",
    b"\x95\xff\0\0\0\0\0\0\0N.",
)


class Reader(pickle.Unpickler):
    """Notes the names that are asked for, and imports none of them."""

    def __init__(self, data):
        super().__init__(io.BytesIO(data))
        self.asked = []

    def find_class(self, module, name):
        self.asked.append((module, name))
        return lambda *given: None


def asked_for(data):
    reader = Reader(data)
    try:
        reader.load()
    except Exception:
        return reader.asked
    raise AssertionError("the reader must fail")


def found_in(data):
    verdict, room = imports_of(data, NOTHING, None, "unknown")
    return verdict, imports_in(records(room))


class BeforeAFault(unittest.TestCase):
    def test_names_asked_for(self):
        for front in FRONTS:
            for fault in FAULTS:
                with self.subTest(front=front, fault=fault):
                    asked = asked_for(front + fault)
                    verdict, found = found_in(front + fault)
                    self.assertFalse(verdict)
                    self.assertEqual(found, asked)
                    self.assertEqual(verdict.imports, len(asked))

    def test_each_ending(self):
        whole = b"(" + FRONTS[2][:-1] + FRONTS[3][:-1] + FRONTS[4] + b"l."
        for length in range(len(whole)):
            self.assertEqual(found_in(whole[:length])[1], asked_for(whole[:length]))

    def test_more_than_the_first_room(self):
        front = b"c%b\n%b\n0" % (b"m" * 3000, b"n" * 3000)
        verdict, found = found_in(front * 2 + b"\xff")
        self.assertEqual((verdict.at, found), (len(front) * 2, [("m" * 3000, "n" * 3000)] * 2))

    def test_an_import_that_is_not_revealed(self):
        data = b"(ca\nb\nPx\nVy\n\x93cc\nd\n\xff"
        wanted = [("a", "b"), (None, None), ("c", "d")]
        self.assertEqual(found_in(data)[1], wanted)
        self.assertEqual(storklocker.missing(data, NOTHING), wanted)

    def test_what_is_missing(self):
        data = b"\x80\x04ccollections\nOrderedDict\n)Rcos\nsystem\n(Vecho\ntR\xff."
        listed = storklocker.AllowList([("collections", "OrderedDict")])
        self.assertEqual(storklocker.missing(data, listed), [("os", "system")])
        verdict = storklocker.check(data, NOTHING)
        both = (("collections", "OrderedDict"), ("os", "system"))
        self.assertEqual((verdict.pair, verdict.missing), (both[0], both))
        with self.assertRaises(Refused) as raised:
            storklocker.imports(data)
        self.assertEqual(raised.exception.verdict.imports, 2)

    def test_nothing_behind_a_limit(self):
        data = b"ca\nb\n0((cc\nd\n."
        limits = storklocker.Limits(stack=2)
        verdict, room = imports_of(data, NOTHING, limits, "unknown")
        self.assertEqual(verdict.reason, storklocker.Reason.TooLarge)
        self.assertEqual(imports_in(records(room)), [("a", "b")])


if __name__ == "__main__":
    unittest.main()

"""States that give values of the library a tuple which has itself many times: it is hashed, or
shown, part by part. In the control, without the guard, each of its parts is counted.
"""

import collections
import decimal
import fractions
import ipaddress
import pathlib
import pickle
import unittest
import uuid

from storklocker import AllowList, Guard, Misused, Refused, lists

LEVELS, MANY = 10, 60
VALUES = (
    uuid.UUID(int=7), uuid.uuid1(), ipaddress.ip_address("::1"), ipaddress.ip_address("10.0.0.1"),
    ipaddress.ip_network("10.0.0.0/8"), fractions.Fraction(1, 3), pathlib.PurePosixPath("a/b"),
    collections.UserString("a"), decimal.DecimalTuple(0, (1, 2), 3),
)


class Counted:
    """Counts how often it is hashed or shown."""

    seen = 0

    def __hash__(self):
        Counted.seen += 1
        return 1

    def __repr__(self):
        Counted.seen += 1
        return "it"


ALLOW = (lists.STANDARD_TYPES | lists.COLLECTIONS | lists.PATHLIB | lists.DECIMAL
         | AllowList([(__name__, "Counted"), ("uuid", "UUID"), ("copyreg", "_reconstructor")]))


def text(word):
    return b"X%c\0\0\0%b" % (len(word), word.encode())


def doubled(levels):
    return b"c%b\nCounted\n)\x81" % __name__.encode() + b"2\x86" * levels


def attacked(value, state):
    """A pickle which sets a state of an object that it then uses as a key."""
    return b"\x80\x02}" + pickle.dumps(value, 2)[2:-1] + state + b"bNs."


def attacks(levels):
    """Pickles with the attributes that a hash looks at, or that are shown, and with fields."""
    it = doubled(levels)
    for value, name in (
        (VALUES[2], "_ip"), (VALUES[2], "_scope_id"), (VALUES[6], "_hash"),
        *((VALUES[6], word) for word in ("_cached_cparts", "_parts_normcase_cached", "_parts",
                                         "_str_normcase_cached")),
    ):
        yield attacked(value, b"N}" + text(name) + it + b"s\x86")
    yield attacked(VALUES[7], b"}" + text("data") + it + b"s")
    for shown in (b"}" + text("int") + b"K\1s" + text("is_safe"), b"}" + text("int")):
        yield attacked(VALUES[0], shown + it + b"s")
    fields = pickle.dumps({decimal.DecimalTuple(0, (1, 2), 3): None}, 2)
    yield fields.replace(b"K\1K\2\x86", it)
    fields = pickle.dumps({decimal.DecimalTuple(0, (1, 2), 3): None}, 1)
    yield b"\x80\x02" + fields.replace(b"(K\1K\2t", it)


class Hashed(unittest.TestCase):
    def seen_by(self, load, data):
        Counted.seen = 0
        try:
            load(data)
        except (Misused, Refused):
            raise
        except Exception:  # (the class refuses what it has hashed or shown)
            pass
        return Counted.seen

    def test_without_the_guard_each_part_is_counted(self):
        most = [self.seen_by(pickle.loads, data) for data in attacks(LEVELS)]
        self.assertGreaterEqual(sum(count >= 1 << LEVELS for count in most), 6, most)

    def test_each_is_refused(self):
        guard = Guard(ALLOW)
        for data in attacks(MANY):
            for _ in range(3):  # (a guard learns how to load a pickle)
                self.assertRaises((Misused, Refused), self.seen_by, guard.loads, data)
                self.assertEqual(Counted.seen, 0)

    def test_honest_ones_load(self):
        guard = Guard(ALLOW)
        for value in VALUES:
            for protocol in range(6 if hasattr(pickle, "PickleBuffer") else 5):
                loaded = guard.loads(pickle.dumps({value: [value]}, protocol))
                self.assertEqual(loaded, {value: [value]})

    def test_what_programs_set_of_their_own(self):
        named = collections.UserString("a")
        named.note = ["mine"]
        self.assertEqual(Guard(ALLOW).loads(pickle.dumps(named, 4)).note, ["mine"])


if __name__ == "__main__":
    unittest.main()

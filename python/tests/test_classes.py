"""Enums whose members are pickled by their value."""

import copy
import enum
import pickle
import unittest

import storklocker
from storklocker import AllowList, Guard
from storklocker.classes import ByValue


class Color(ByValue, enum.Enum):
    RED = 1
    CRIMSON = 1
    GREEN = ("a", 2)


class Size(ByValue, enum.IntEnum):
    SMALL = 1


class Word(ByValue, str, enum.Enum):
    YES = "yes"


class Access(ByValue, enum.Flag):
    READ = 1
    WRITE = 2


class Kind(ByValue, enum.IntFlag):
    NONE = 0
    A = 1
    B = 2


class Planet(ByValue, enum.Enum):
    EARTH = (5.9e24, 6.3e6)

    def __init__(self, mass, radius):
        self.mass, self.radius = mass, radius


class Plain(enum.Enum):
    RED = 1

    def __reduce_ex__(self, protocol):  # as Python 3.11.0 to 3.11.3 write members
        return getattr, (type(self), self._name_)


MEMBERS = [*Color, Size.SMALL, Word.YES, Access.READ, Access.READ | Access.WRITE, Planet.EARTH]
MEMBERS += [Kind.A, Kind.A | Kind.B, Kind.NONE, Color.CRIMSON]


class Enums(unittest.TestCase):
    def test_a_list_needs_the_class_alone(self):
        for member in MEMBERS:
            guard = Guard(AllowList([type(member)]))
            for protocol in range(6):
                data = pickle.dumps({"its": [member, member]}, protocol)
                found = storklocker.imports(data)
                self.assertEqual({*found}, {("test_classes", type(member).__name__)}, member)
                first, second = guard.loads(data)["its"]
                self.assertIs(first, second)
                self.assertEqual((first, type(first)), (member, type(member)))
        for member in (Color.RED, Word.YES, Planet.EARTH):
            self.assertIs(Guard(AllowList([type(member)])).loads(pickle.dumps(member)), member)
            self.assertIs(copy.deepcopy(member), member)

    def test_without_it_getattr_is_asked_for(self):
        found = storklocker.imports(pickle.dumps(Plain.RED, 4))
        self.assertIn(("builtins", "getattr"), found)
        with self.assertRaises(storklocker.Refused):
            Guard(AllowList([Plain])).loads(pickle.dumps(Plain.RED))

    def test_a_value_that_no_member_has(self):
        data = b"\x80\x04\x8c\x0ctest_classes\x8c\x05Color\x93K\x07\x85R."
        with self.assertRaises(ValueError):
            Guard(AllowList([Color])).loads(data)


if __name__ == "__main__":
    unittest.main()

"""What substitutes look through: twice the input takes at most two and a half times the steps."""

import os
import sys
import unittest

from common import IMPORTED_FROM, needs
from storklocker import AllowList, Guard, Misused, lists
from test_handed_out import NUMBERS, array, kind, name

HERE = "test_steps"
OURS = str(IMPORTED_FROM / "storklocker")
MOST = 2.5


def steps_of(guard, data):
    """The calls that functions of the package make while it loads a pickle."""
    count = 0

    def note(frame, event, _):
        nonlocal count
        count += event in ("call", "c_call") and frame.f_code.co_filename.startswith(OURS)

    before = sys.getprofile()
    sys.setprofile(note)
    try:
        guard.loads(data)
    except (Misused, ValueError, TypeError):
        pass
    finally:
        sys.setprofile(before)
    return count


def text(word):
    return b"X" + len(word).to_bytes(4, "little") + word.encode()


def many(count, of=b"K\1"):
    return b"(" + of * count + b"t"


def put(number):
    return b"r" + number.to_bytes(4, "little")


def got(number):
    return b"j" + number.to_bytes(4, "little")


def shared(levels, opening=b"(", closing=b"t"):
    """Tuples, each of which has the one before it twice."""
    front = b")" + put(0)
    for k in range(levels):
        front += b"0" + opening + got(k) * 2 + closing + put(k + 1)
    return front


SET = name("builtins", "set")
SETS = {
    "a key that shares its parts": lambda n: (
        shared(n) + b"0" + SET + b"]" + got(n) + b"a\x85R"),
    "one key of many sets": lambda n: (
        many(n) + put(0) + b"0" + (SET + b"]" + got(0) + b"a\x85R0") * n + b"N"),
    "many keys of one set": lambda n: SET + b"](" + b"K\1K\2\x86" * n + b"e\x85R",
    "one list of many sets": lambda n: (
        b"]" + many(n)[:-1] + b"e" + put(0) + b"0"
        + (SET + got(0) + b"\x85R0") * n + b"N"),
    "many tuples": lambda n: name("builtins", "tuple") + b"](" + b")\x85" * n + b"e\x85R",
}
SHOWN = {
    "one list that is shown often": lambda n: (
        b"]" + many(n)[:-1] + b"e" + put(0) + b"0"
        + (name("configparser", "NoSectionError") + got(0) + b"\x85R0") * n + b"N"),
    "what shares its parts": lambda n: (
        shared(n) + b"0" + name("configparser", "NoSectionError") + got(n) + b"\x85R"),
}


class Steps(unittest.TestCase):
    def compare(self, guard, made, least):
        for about, make in made.items():
            with self.subTest(about=about):
                few, twice = (steps_of(guard, b"\x80\x03" + make(n) + b".")
                              for n in (least, 2 * least))
                self.assertGreater(few, 5)
                self.assertLessEqual(twice, MOST * few, (few, twice))

    def test_keys(self):
        guard = Guard(lists.STANDARD_TYPES | lists.DECIMAL)
        self.compare(guard, SETS, 400)

    def test_what_is_shown(self):
        self.compare(Guard(lists.EXCEPTIONS), SHOWN, 400)

    @needs("module:numpy")
    def test_states(self):
        import subarrays

        guard = Guard(lists.NUMPY | AllowList([subarrays.Nested]))
        made = (name("numpy.core.multiarray", "_reconstruct") + name("subarrays", "Nested")
                + b"K\0\x85C\x01b\x87R")
        part = b"(K\1K\1\x85" + kind("i8", NUMBERS) + b"\x89C\x08" + bytes(8) + b"t"
        self.compare(guard, {
            "a state that shares its parts": lambda n: (
                shared(n) + b"0" + made + b"(" + part + got(n) + b"tb"),
            "one part of many states": lambda n: (
                many(n) + put(0) + b"0" + (made + b"(" + part + got(0) + b"tb0") * n + b"N"),
            "many arrays": lambda n: array(kind("i8", NUMBERS), b"K\1\x85", b"C\x08" + bytes(8)) * n
            + b"0" * (n - 1),
        }, 200)


if __name__ == "__main__":
    os.chdir(str(IMPORTED_FROM))
    unittest.main()

"""A file that is one small pickle is reported on in a short way, and as in the long one."""

import io
import os
import pickle
import random
import tempfile
import unittest
from unittest import mock

from common import OBJECTS, SEEDS
from storklocker import AllowList, Limits
from storklocker.scanning import judging
from storklocker.scanning.all_readings import asked
from storklocker.scanning.condensing import condensed
from storklocker.scanning.file import File
from storklocker.scanning.judging import Question, reports_of
from storklocker.scanning.lone import Lone
from storklocker.scanning.one_file import scan_file
from storklocker.scanning.source import BLOCK, whole_of
from test_asked import files

TIMES = 500
PAIRS = [("collections", "OrderedDict"), ("datetime", "datetime"), ("builtins", "print")]
TORCH = b"\x80\x02\x8a\nl\xfc\x9cF\xf9 j\xa8P\x19."
LISTS = (
    None,
    AllowList(PAIRS),
    AllowList(PAIRS, limits=Limits(memo=3)),
    AllowList(PAIRS, limits=Limits(levels=2)),
    AllowList(PAIRS, build="any"),
)


def framed(code):
    """A pickle of these instructions, which looks like no other file."""
    return b"\x80\x04\x95" + len(code).to_bytes(8, "little") + code


DEEP, HEAVY = framed(b"})" + b"\x85" * 1500 + b"Ns."), framed(b"})" + b"2\x86" * 60 + b"Ns.")
ARRAY = framed(b"cjoblib.numpy_pickle\nNumpyArrayWrapper\n.")


def imports(count, length=4):
    """A pickle that imports so many names of this length."""
    names = (b"\x8c%c%b" % (length, b"%0*d" % (length, it)) for it in range(count))
    return framed(b"(" + b"".join(name * 2 + b"\x93" for name in names) + b"l.")


def pickles():
    """Pickles, and what only begins like one."""
    yield from (*SEEDS, *files(), DEEP, HEAVY, ARRAY, TORCH, TORCH * 5)
    yield pickle.dumps({(((((1,),),),),): 2}, 4)
    yield from (imports(count) for count in (0, 1, 7, 8, 9, 100))
    yield from (imports(1, length) for length in (100, 118, 119, 200, 255))
    codes = (b"", b"NN.", b"N.N.", b"\x82\1.", b"Nr\xff\xff\xff\x7f.", b"Nr\xff\xff\x0f\0.")
    odd = (b"\x8c\0\x8c\1n\x93.", b"\x8c\1m\x8c\0\x93.", b"N\x94h\0h\0\x93.")
    yield from map(framed, (*codes, *odd))
    names = (b"os\nsystem\n.", b"builtins\nprint\n}b.", b"datetime\ndatetime\n}b.")
    yield from (framed(b"c" + it) for it in names)
    for size in (BLOCK - 1, BLOCK, BLOCK + 1):
        data = pickle.dumps(b"d" * (size - 10), 3)
        yield from (data, data + b"N.")


def both(data, allow, path="file"):
    """The reports on a file in the short way and in the long one."""
    def said():
        return list(condensed(reports_of(path, io.BytesIO(data), Question(allow, True))))

    with mock.patch.object(judging.Lone, "told", lambda *_: None):
        long = said()
    return said(), long


class Short(unittest.TestCase):
    def test_reports_are_those_of_the_long_way(self):
        for data in pickles():
            for allow in LISTS:
                self.assertEqual(*both(data, allow), (data[:99], allow))

    def test_reports_on_files_are_those_on_their_bytes(self):
        with tempfile.TemporaryDirectory() as folder:
            path = os.path.join(folder, "file")
            for data in (b"", *pickles()):
                with open(path, "wb") as file:
                    file.write(data)
                found = scan_file(File(path), Question(None, True))
                self.assertEqual(found, both(data, None, path)[1], data[:99])

    def test_what_is_not_whole_is_read_again(self):
        with tempfile.TemporaryFile() as file:
            for size in (0, 1, BLOCK - 1, BLOCK, BLOCK + 1, 2 * BLOCK):
                file.truncate(size)
                wanted = bytes(size) if size <= BLOCK else b""
                self.assertEqual(whole_of(file.fileno()), wanted)
                self.assertEqual(os.lseek(file.fileno(), 0, os.SEEK_CUR), 0)
            file.truncate(9)
            for size in (0, 5, 8, 10, BLOCK):  # as if it grew or shrank
                with mock.patch("os.lseek", side_effect=lambda *_: size):
                    self.assertEqual(whole_of(file.fileno()), b"")
        ends = os.pipe()
        os.write(ends[1], b"N.")
        os.close(ends[1])
        self.assertEqual(whole_of(ends[0]), b"")
        with open(ends[0], "rb") as left:
            self.assertEqual(left.read(), b"N.")

    def test_reports_on_changed_pickles(self):
        chosen, seeds = random.Random(1), [*SEEDS, DEEP, imports(3)]
        for _ in range(TIMES):
            data = bytearray(chosen.choice(seeds))
            for _ in range(chosen.randrange(3)):
                data[chosen.randrange(len(data))] = chosen.choice(b"\x80\x94.()0N}]\x85Rb\x93c\xff")
            self.assertEqual(*both(bytes(data), chosen.choice(LISTS)), data)

    def test_what_the_name_says(self):
        for path in ("a.dat", "a.DISTCP", ".metadata", "a.pkl"):
            self.assertEqual(*both(SEEDS[4], None, path))

    def test_most_files_are_told_of_in_the_short_way(self):
        allow = AllowList([*PAIRS, ("collections", "deque"), ("builtins", "set")])
        allow |= AllowList([("collections", "Counter")])
        for value in OBJECTS:
            for listed in (None, allow):
                told = Lone(listed, asked).told("file", pickle.dumps(value, 4))
                self.assertIsNotNone(told, value)

    def test_what_is_not_permitted_takes_the_long_way(self):
        allow = AllowList([*PAIRS, ("joblib.numpy_pickle", "NumpyArrayWrapper")])
        for data in (pickle.dumps(pickle.loads, 4), DEEP, HEAVY, ARRAY, imports(100)):
            self.assertIsNone(Lone(allow, asked).told("file", data), data[:99])


if __name__ == "__main__":
    unittest.main()

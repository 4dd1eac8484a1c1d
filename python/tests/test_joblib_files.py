"""`scan` on files of joblib, whose arrays stand raw between the instructions of a pickle."""

import bz2
import importlib.util
import io
import pathlib
import pickle
import random
import sys
import tempfile
import types
import unittest
import unittest.mock

import storklocker
from common import SEEDS, needs
from storklocker._storklocker import followed
from storklocker.contrib.joblib import load_joblib
from storklocker.scanning.joblib_cutting import Cutter
from storklocker.scanning.following import NotFollowed
from storklocker.scanning.judging import Question, reports_of
from storklocker.scanning.source import in_memory

NAMES = [
    ("joblib.numpy_pickle", "NumpyArrayWrapper"), ("numpy", "ndarray"), ("numpy", "dtype"),
    ("numpy.core.multiarray", "scalar"), ("copyreg", "_reconstructor"), ("builtins", "object"),
]
ALLOW = storklocker.AllowList(NAMES)
RUNS = b"cos\nsystem\n(Vecho a hostile pickle ran\ntR"
WRAPPER = b"cjoblib.numpy_pickle\nNumpyArrayWrapper\n"
MADE = WRAPPER + b")\x81"
RAW = b"\x05" + b"\xff" * 5 + bytes(range(3))
"""Three bytes, aligned."""


def text(word):
    return b"X" + len(word).to_bytes(4, "little") + word.encode()


def kind(word="u1", flags=b"K\0", state=b"NNN"):
    """The instructions that make a type."""
    made = b"cnumpy\ndtype\n(" + text(word) + b"K\0K\1tR"
    return made + b"(K\3" + text("|") + state + b"J\xff\xff\xff\xff" * 2 + flags + b"tb"


def state(dtype=None, shape=b"K\3\x85", more=b"", alignment=b"K\x10"):
    """The instructions that make the state of a wrapper."""
    made = b"}(" + text("subclass") + b"cnumpy\nndarray\n" + text("shape") + shape
    made += text("order") + text("C") + text("dtype") + (kind() if dtype is None else dtype)
    made += text("allow_mmap") + b"\x89"
    if alignment:
        made += text("numpy_array_alignment_bytes") + alignment
    return made + more + b"u"


def file_of(*parts):
    return b"\x80\x02" + b"".join(parts)


ARRAY = MADE + state() + b"b" + RAW
OBJECTS = MADE + state(kind("O8", b"K?")) + b"b"
THROUGH = b"cnumpy.core.multiarray\nscalar\n(" + kind("O8", b"K?") + WRAPPER + b"tR)\x81"
RECONSTRUCTED = b"ccopyreg\n_reconstructor\n" + WRAPPER + b"cbuiltins\nobject\nN\x87R"
GOOD = {
    "an array": file_of(ARRAY, b"."),
    "two arrays": file_of(b"](", ARRAY, ARRAY, b"e."),
    "without alignment": file_of(MADE, state(alignment=b""), b"b", RAW[6:], b"."),
    "by copyreg": file_of(RECONSTRUCTED, state(), b"b", RAW, b"."),
    "an array of objects": file_of(OBJECTS, b"\x80\x02]K\1a.", b"."),
    "a class that is dropped": file_of(WRAPPER, b"0N."),
    "an empty array": file_of(MADE, state(shape=b"K\0\x85"), b"b\0", b"."),
}
HOSTILE = {
    "after an array": file_of(ARRAY, RUNS, b"."), "in front": file_of(RUNS, ARRAY, b"."),
    "in an array of objects": file_of(OBJECTS, RUNS, b".", b"."),
    "an array that is longer": file_of(MADE, state(shape=b"K\4\x85"), b"b", RAW, RUNS, b"."),
    "an array that is shorter": file_of(MADE, state(shape=b"K\0\x85"), b"b\0", RUNS, b"."),
    "flags that lie": file_of(MADE, state(kind("u1", b"K\1")), b"b", RUNS, b"."),
    "objects that lie": file_of(MADE, state(kind("O8", b"K\0")), b"b", bytes(25), b"."),
    "a class that goes through a function": file_of(THROUGH, state(), b"b", RUNS, b"."),
    "built twice": file_of(MADE, b"q\1", state(), b"b", RAW, b"h\1", state(), b"b", RUNS, b"."),
    "twice on the stack": file_of(MADE, b"2", state(), b"b", RAW, b"0", state(), b"b", RUNS, b"."),
    "another alignment": file_of(MADE, state(alignment=b"K\x20"), b"b", RAW, b"."),
    "padding of other bytes": file_of(MADE, state(), b"b\5", RUNS[:5], bytes(3), b"."),
    "bytes behind it": file_of(ARRAY, b".", RUNS, b"."), "no end": file_of(ARRAY),
    "a plain type with fields": file_of(MADE, state(kind(state=b"N(tN")), b"b", RAW, b"."),
    "a negative shape": file_of(MADE, state(shape=b"J\xfd\xff\xff\xff\x85"), b"b", RAW, b"."),
    "inside a frame": b"\x80\4\x95" + (len(ARRAY) + 1).to_bytes(8, "little") + ARRAY + b".",
    "across a frame's end, behind an array of objects": file_of(
        b"](", OBJECTS, b"\x80\2]K\1a.", b"\x95\5" + bytes(7), RUNS, b"e."
    ),
    "files that it names": b"cjoblib.numpy_pickle\nNDArrayWrapper\n0" + WRAPPER + b"0N.",
}


class JoblibFiles(unittest.TestCase):
    def reports(self, data):
        return list(reports_of("file", io.BytesIO(data), Question(ALLOW)))

    def test_what_joblib_writes(self):
        for name, data in GOOD.items():
            (found,) = self.reports(data)
            self.assertEqual(found.kind, "joblib", name)
            if found.status != "undecided":
                self.assertEqual((found.status, found.findings), ("accepted", ()), name)
            elif importlib.util.find_spec("numpy") is not None:  # which its substitutes need
                self.fail(f"{name}: {found.why}")

    def test_what_it_does_not_write(self):
        for name, data in HOSTILE.items():
            found = self.reports(data)
            self.assertTrue(any(report.is_finding for report in found), name)

    def test_each_end(self):
        for data in GOOD.values():
            for end in range(2, len(data)):
                self.assertTrue(any(report.is_finding for report in self.reports(data[:end])), end)

    def test_names(self):
        (found,) = self.reports(HOSTILE["after an array"])
        self.assertEqual((found.status, found.missing), ("refused", (("os", "system"),)))
        (found,) = self.reports(HOSTILE["in an array of objects"])
        self.assertEqual((found.status, found.missing), ("refused", (("os", "system"),)))


PLAIN = [
    *(b"( 0 N ) } ] G12345678 a e t u s h\0 h\1 q\0 q\1 j\1\0\0\0 r\1\0\0\0 2 1 b R".split(b" ")),
    *(b"\x80\4 \x88 \x89 \x8f \x85 \x86 \x87 \x94 \x93 \x81 K\1 M\1\2 J\xff\xff\xff\xff".split()),
    *(b"\x8c\1a \x8c\0 X\1\0\0\0a C\1a B\1\0\0\0a \x8c\1\xff X\2\0\0\0\xed\xa0".split()),
    b"\x8e\1\0\0\0\0\0\0\0a", b"\x96\1\0\0\0\0\0\0\0a", b"\x95\2\0\0\0\0\0\0\0",
    b"\x95" + b"\xff" * 8, b"X" + (5000).to_bytes(4, "little") + b"a" * 5000,
    WRAPPER, b"cnumpy\ndtype\n", b"(((", b"NNN", b"KKK", b".",
]


def outcome(data):
    """What is cut, or why nothing is; and what the stack and the memo have at the end."""
    cutter = Cutter(in_memory(io.BytesIO(data)), lambda at: 0, lambda steps: None)
    try:
        said = cutter.cut()
    except NotFollowed as error:
        said = str(error)
    shown = [repr(getattr(it, "__dict__", it)) for it in (cutter._stack, cutter._memo.items())]
    return said, cutter._at, cutter._frame, shown[0].count(","), len(cutter._memo)


class OtherFiles(unittest.TestCase):
    """joblib before 0.10 kept each array in a file of its own, which may have a pickle."""

    @needs("module:joblib")
    def test_a_name_leads_to_a_pickle(self):
        import joblib

        with tempfile.TemporaryDirectory() as folder:
            ran = pathlib.Path(folder, "ran")
            pathlib.Path(folder, "other").write_bytes(b"cos\nmkdir\n(V%b\ntR." % bytes(ran))
            for module in ("joblib.numpy_pickle", "joblib.numpy_pickle_compat"):
                made = b"c" + module.encode() + b"\nNDArrayWrapper\n)\x81}(" + text("filename")
                data = file_of(made, text("other"), text("allow_mmap"), b"\x89ub.")
                path = pathlib.Path(folder, "file")
                path.write_bytes(data)
                with self.assertRaises(Exception):
                    joblib.load(path)
                ran.rmdir()
                (found,) = reports_of("file", io.BytesIO(data), Question())
                self.assertEqual([it.kind for it in found.findings], ["risky-import"])


class Hastened(unittest.TestCase):
    """The cutter does the same with and without its part in C."""

    def compare(self, data):
        quick = outcome(data)
        with unittest.mock.patch.object(Cutter, "_hasten", lambda _: None):
            self.assertEqual(quick, outcome(data), data)
        return quick

    def test_files(self):
        cut = [self.compare(data) for data in (*GOOD.values(), *HOSTILE.values(), *SEEDS)]
        self.assertGreater(sum(not isinstance(said, str) for said, *_ in cut), 40)

    def test_changed_files(self):
        chosen = random.Random(1)
        files = [*GOOD.values(), *HOSTILE.values(), pickle.dumps([("a", 1, 2.5)] * 3, 4)]
        for number in range(6_000):
            data = bytearray(files[number % len(files)])
            for _ in range(chosen.randrange(1, 4)):
                at = chosen.randrange(len(data))
                data[at : at + chosen.randrange(2)] = bytes([chosen.randrange(256)])
            self.compare(bytes(data))

    def test_instructions_in_any_order(self):
        chosen = random.Random(2)
        for _ in range(6_000):
            self.compare(b"".join(chosen.choices(PLAIN, k=chosen.randrange(1, 24))) + b".")

    def test_any_bytes(self):
        chosen = random.Random(3)
        for _ in range(10_000):
            data = bytes(chosen.choices(range(256), k=chosen.randrange(40)))
            at, frame = followed(data, 0, [], {}, object(), object(), list)
            self.assertTrue(0 <= at <= len(data) and frame >= 0)

    def test_what_it_does_not_take(self):
        for words in ((b"N", 2, [], {}), (b"N", -1, [], {}), (b"N", 0, (), {}), ("N", 0, [], {}),
                      (b"N", 0, [], []), (b"N", 0, [], None), (bytearray(b"N"), 0, [], {})):
            with self.assertRaises((TypeError, ValueError)):
                followed(*words, object(), object(), list)


class FakeZstd:
    """Stands for `ZstdDecompressor`: bzip2 behind the magic of zstd."""

    MAGIC = b"\x28\xb5\x2f\xfd"

    class ZstdError(Exception):
        pass

    def __init__(self):
        self.front, self.made = 0, bz2.BZ2Decompressor()

    def __getattr__(self, name):
        return getattr(self.made, name)

    def decompress(self, data, most):
        skipped = min(len(self.MAGIC) - self.front, len(data))
        self.front += skipped
        try:
            return self.made.decompress(data[skipped:], most)
        except OSError as error:
            raise self.ZstdError(str(error)) from error


class Unpacking(unittest.TestCase):
    """What joblib loads if somebody has registered a compressor."""

    def load(self, data, **modules):
        guard = storklocker.Guard(storklocker.AllowList([]), max_bytes=1 << 16)
        names = {"compression.zstd": None, "backports": None, **modules}
        with unittest.mock.patch.dict(sys.modules, names):
            return load_joblib(data, guard)

    def test_zstd(self):
        data = FakeZstd.MAGIC + bz2.compress(pickle.dumps([1, 2]))
        zstd = types.SimpleNamespace(ZstdDecompressor=FakeZstd, ZstdError=FakeZstd.ZstdError)
        found = {"backports": types.SimpleNamespace(), "backports.zstd": zstd}
        self.assertEqual(self.load(data, **found), [1, 2])
        large = FakeZstd.MAGIC + bz2.compress(bytes(1 << 20))
        for bad, said in ((data[:20], "truncated"), (data[:6] + data[7:], "can't be read"),
                          (large, "max_bytes"), (data + b"N", "bytes follow")):
            with self.assertRaisesRegex(pickle.UnpicklingError, said):
                self.load(bad, **found)
        with self.assertRaisesRegex(pickle.UnpicklingError, "this Python can't unpack the file"):
            self.load(data)

    @needs("module:lz4")
    def test_changed_lz4(self):
        from lz4 import frame

        data = frame.compress(pickle.dumps(list(range(300))))
        self.assertEqual(self.load(data), list(range(300)))
        for at in range(len(data)):
            for bad in (data[:at], data[:at] + bytes([data[at] ^ 0x55]) + data[at + 1 :]):
                try:
                    self.load(bad)
                except pickle.UnpicklingError:
                    continue


if __name__ == "__main__":
    unittest.main()

"""What substitutes hand out: no view of references, and nothing that takes items afterwards."""

import collections
import http
import inspect
import io
import pickle
import re
import subprocess
import sys
import unittest
import zipfile

import storklocker
from common import PYTHON, needs
from storklocker import AllowList, Guard, Misused, lists

HERE = "test_handed_out"
OBJECTS = b"K\x03X\x01\0\0\0|NNNJ\xff\xff\xff\xffJ\xff\xff\xff\xffK\x3ftb"
NUMBERS = b"K\x03X\x01\0\0\0<NNNJ\xff\xff\xff\xffJ\xff\xff\xff\xffK\0tb"


class Named:
    """Says itself how it is pickled, with items."""

    def __init__(self):
        self.rows, self.items = [], {}

    def append(self, it):
        self.rows.append(it)

    def __setitem__(self, key, value):
        self.items[key] = value

    def __reduce__(self):
        return Named, (), None, iter(self.rows), iter(self.items.items())


class Rows(list):
    pass


class Table(dict):
    pass


class Kinds(set):
    pass


class Own(collections.UserDict):
    pass


def name(module, word):
    return f"c{module}\n{word}\n".encode()


def kind(code, state):
    text = b"X" + len(code).to_bytes(4, "little") + code.encode()
    return name("numpy", "dtype") + text + b"\x89\x88\x87R(" + state


def array(of, shape, contents):
    made = name("numpy.core.multiarray", "_reconstruct") + name("numpy", "ndarray")
    return made + b"K\0\x85C\x01b\x87R(K\x01" + shape + of + b"\x89" + contents + b"tb"


def view(*given):
    """A pickle of an array of objects, and of a view over it as numbers."""
    objects = array(kind("O8", OBJECTS), b"K\x01\x85", b"]X\x06\0\0\0secreta")
    front = b"\x80\x03" + kind("i8", NUMBERS) + b"q\x090" + objects + b"q\x0a"
    called = name("numpy.core.numeric", "_frombuffer") + b"(h\x0ah\x09K\x01\x85X\x01\0\0\0CtR"
    return front + called + b"".join(given) + b"\x86."


ADDRESS = b"K\0\x8a\x06" + (0x414141414140).to_bytes(6, "little") + b"s"
USE = """
import pickle, resource, sys
resource.setrlimit(resource.RLIMIT_CORE, (0, 0))
pair = pickle.loads(sys.stdin.buffer.read())
pair[1][0] = 0x414141414140
print(pair[0][0])
"""


class Arrays(unittest.TestCase):
    @needs("module:numpy")
    def test_a_view_of_references(self):
        for data in (view(), view(ADDRESS)):
            for listed in (lists.NUMPY, lists.PANDAS, lists.SCIKIT_LEARN):
                guard = Guard(listed)
                self.assertTrue(guard.check(data))
                for load in (guard.loads, lambda it: guard.Unpickler(io.BytesIO(it)).load()):
                    with self.assertRaises(Misused):
                        load(data)
            ran = subprocess.run([sys.executable, "-c", USE], input=data, stderr=subprocess.PIPE)
            self.assertLess(ran.returncode, 0)  # (the control)

    @needs("module:numpy")
    def test_buffers(self):
        import numpy

        guard = Guard(lists.NUMPY | lists.STANDARD_TYPES)
        for made in (numpy.arange(6).reshape(2, 3), numpy.zeros(3, "f4,i2"), numpy.ones(2, "c16")):
            buffers = []
            data = pickle.dumps(made, 5, buffer_callback=buffers.append)
            raw = [it.raw() for it in buffers]
            for given in (buffers, raw, [bytes(it) for it in raw], [bytearray(it) for it in raw],
                          [numpy.frombuffer(it, "u1") for it in raw]):
                found = guard.loads(data, buffers=given)
                self.assertEqual((found.tobytes(), found.dtype), (made.tobytes(), made.dtype))
            self.assertEqual(guard.loads(pickle.dumps(made, 5)).tobytes(), made.tobytes())

    @needs("module:numpy")
    def test_items_of_arrays(self):
        guard = Guard(lists.NUMPY | lists.STANDARD_TYPES)
        one = array(kind("i8", NUMBERS), b"K\x01\x85", b"C\x08" + bytes(8))
        for data in (one + b"K\0K\x05s.", one + b"(K\0K\x05u.", one + b"q\x000h\0K\0K\x05s."):
            self.assertEqual(pickle.loads(b"\x80\x03" + data)[0], 5)  # (the control)
            with self.assertRaises(Misused):
                guard.loads(b"\x80\x03" + data)
        empty = one.rpartition(b"(K\x01")[0]
        for data in (empty + b"]K\x05s.", empty + b"(]K\x05u."):
            pickle.loads(b"\x80\x03" + data)  # (the control: what has no state yet takes them too)
            with self.assertRaises(Misused):
                guard.loads(b"\x80\x03" + data)

    @needs("module:numpy")
    def test_the_places_of_generators(self):
        import numpy

        listed = AllowList({"numpy.random._pickle": ["__randomstate_ctor", "__bit_generator_ctor",
                                                     "__generator_ctor"]})
        guard = Guard(lists.NUMPY | listed)
        state = numpy.random.RandomState(1)
        honest = [state, numpy.random.MT19937(2), numpy.random.PCG64(3), numpy.random.Philox(4),
                  numpy.random.SFC64(5), numpy.random.Generator(numpy.random.PCG64(6))]
        for made in honest:
            found = guard.loads(pickle.dumps(made, 4))
            self.assertEqual(pickle.dumps(found, 4), pickle.dumps(made, 4))
        call, given, inner = state.__reduce__()
        for wrong in (numpy.int64(10**9), numpy.array(10**9), [10**9], True, -1, 10**9, 1.0):
            data = pickle.dumps(_As(call, given, {**inner, "state": {**inner["state"],
                                                                     "pos": wrong}}), 4)
            with self.subTest(wrong=wrong), self.assertRaises(Misused):
                guard.loads(data)


@needs("module:torch")
class Tensors(unittest.TestCase):
    def test_states(self):
        """One would set functions that are called for a gradient, or a place in the storage."""
        import torch
        from storklocker.contrib.torch import load_torch

        is_asked = "weights_only" in inspect.signature(torch.load).parameters
        words = {"weights_only": False} if is_asked else {}
        hooks = b"(\x88N}K\0ccollections\nOrderedDict\nstb."
        for made in (torch.ones(2), torch.nn.Parameter(torch.ones(2))):
            file, changed = io.BytesIO(), io.BytesIO()
            torch.save(made, file)
            with zipfile.ZipFile(file) as given, zipfile.ZipFile(changed, "w") as taken:
                for word in given.namelist():
                    data = given.read(word)
                    data = data[:-1] + hooks if word.endswith("/data.pkl") else data
                    taken.writestr(word, data)
            loaded = torch.load(io.BytesIO(changed.getvalue()), **words)  # (the control)
            self.assertTrue(getattr(loaded, "_backward_hooks"))
            guard = Guard(lists.TORCH_TENSORS)
            self.assertRaises(Misused, load_torch, io.BytesIO(changed.getvalue()), guard)
            self.assertTrue(load_torch(io.BytesIO(file.getvalue()), guard).equal(made))


class Enums(unittest.TestCase):
    def test_the_value_of_a_member_is_weighed(self):
        """A tuple doubled sixty times takes years to hash, which an enum does (3.14 keeps hashes),
        and to show.
        """
        guard = Guard(lists.ENUM)
        with self.assertRaises(Misused):
            guard.loads(b"\x80\3cre\nRegexFlag\n)" + b"2\x86" * 60 + b"\x85R.")
        for member in (re.IGNORECASE, re.IGNORECASE | re.MULTILINE, http.HTTPStatus.OK):
            for protocol in range(6):
                self.assertEqual(guard.loads(pickle.dumps(member, protocol)), member)


class _As:
    def __init__(self, *parts):
        self.parts = parts

    def __reduce__(self):
        return self.parts


class Items(unittest.TestCase):
    def test_what_picklers_write(self):
        kinds = (Named, Rows, Table, Kinds)
        listed = AllowList(kinds) | lists.STANDARD_TYPES | lists.COLLECTIONS
        guard = Guard(listed, fix_imports=True)
        named, rows, table, tied = Named(), Rows([1]), Table(a=1), []
        named.append(1)
        named["a"] = 2
        tied.append((tied, {1: tied}))
        values = [named, rows, table, tied, Kinds({1}), collections.deque([1, 2], 3), {1, 2},
                  collections.defaultdict(list, a=[1]), collections.Counter("aab"),
                  collections.OrderedDict(a=1), [{"a": {1}}, [], {}], set(), [None] * 2000]
        for protocol in range(6):
            for value in values:
                data = pickle.dumps(value, protocol)
                found = guard.loads(data)
                self.assertIs(type(found), type(value))
                self.assertEqual(pickle.dumps(found, protocol),
                                 pickle.dumps(pickle.loads(data), protocol))

    def test_what_none_writes(self):
        guard = Guard(lists.STANDARD_TYPES | lists.COLLECTIONS | AllowList([Own]))
        made = name("array", "array") + b"X\x01\0\0\0q]K\1a\x86R"
        both = name("collections", "ChainMap") + b"]K\1a\x85R"
        own = name(HERE, "Own") + b")\x81}X\x04\0\0\0data]K\1asb"
        for data in (
            made + b"K\0K\x05s.", made + b"(K\0K\x05u.", made + b"K\x05a.", made + b"(K\x05e.",
            made + b"q\x000h\0K\x05a.", both + b"K\0K\x05s.", own + b"K\0K\x05s.",
            name("builtins", "bytearray") + b"C\x01a\x85RK\0K\x05s.",
        ):
            with self.subTest(data=data):
                pickle.loads(b"\x80\x03" + data)  # (the control)
                with self.assertRaises(Misused):
                    guard.loads(b"\x80\x03" + data)
                with self.assertRaises(Misused):
                    guard.Unpickler(io.BytesIO(b"\x80\x03" + data)).load()
                self.assertTrue(storklocker.check(b"\x80\x03" + data, guard.allow))


if __name__ == "__main__":
    sys.path.insert(0, str(PYTHON))
    unittest.main()

"""No pickle changes what it imports, however a guard reads it."""

import copy
import io
import logging
import os
import pickle
import random
import sys
import types
import unittest

import storklocker
from storklocker import AllowList, Guard, Misused, Reason, Refused
from storklocker.contrib import _rows
from streams import Piped

logging.getLogger("storklocker").setLevel(logging.ERROR)


class Job:
    """A class of the program, which lists may have."""

    def run(self):
        return "run"


def resize(path="a.png"):
    """A function of the program."""
    return f"resize {path}"


def text(word):
    """The instruction that pushes a text."""
    return b"\x8c" + bytes([len(word)]) + word.encode()


def name(word):
    """The instructions that import a name of this program."""
    return text("job_program") + text(word) + b"\x93"


def whole(*instructions):
    """A pickle of these instructions."""
    return b"\x80\x04" + b"".join(instructions) + b"."


DEFAULTS = b"N}" + text("__defaults__") + text("hurt") + b"\x85s\x86"
METHOD = b"N}" + text("run") + name("resize") + b"s\x86"
HOSTILE = {
    "defaults of a function": whole(name("resize"), DEFAULTS, b"b"),
    "method of a class": whole(name("Job"), METHOD, b"b"),
    "by GLOBAL": whole(b"cjob_program\nJob\n", METHOD, b"b"),
    "through the memo": whole(name("Job"), b"\x940", METHOD, b"0h\x00", METHOD, b"b"),
    "through a numbered memo": whole(b"cjob_program\nJob\np7\n0g7\n", METHOD, b"b"),
    "through DUP": whole(name("Job"), b"2", METHOD, b"b0"),
    "in a tuple's place": whole(b"(", name("Job"), METHOD, b"bt"),
    "behind POP_MARK": whole(name("Job"), b"(NN1", METHOD, b"b"),
    "behind other builds": whole(
        name("Job"), b")\x81", b"N}" + text("a") + b"Ns\x86b0", name("Job"), METHOD, b"b"
    ),
}
HONEST = {
    "an object": whole(name("Job"), b")\x81}", text("a"), b"Nsb"),
    "an object by its class's call": whole(name("Job"), b")R}", text("a"), b"Nsb"),
    "an object by INST": b"(ijob_program\nJob\n}S'a'\nNsb.",
    "an object by OBJ": b"(cjob_program\nJob\no}S'a'\nNsb.",
    "an object above its class": whole(name("Job"), b"2)\x81}", text("a"), b"Nsb\x86"),
    "a class beside a text": whole(name("Job"), text("b"), b"\x86"),
}


INSTALLED = (
    lambda data: pickle.loads(data),
    lambda data: pickle._loads(data),
    lambda data: pickle.load(io.BytesIO(data)),
    lambda data: pickle.Unpickler(io.BytesIO(data)).load(),
    lambda data: pickle._Unpickler(io.BytesIO(data)).load(),
)


class Changes(unittest.TestCase):
    def setUp(self):
        module = types.ModuleType("job_program")
        module.Job = type("Job", (), {"run": Job.run})
        module.resize = types.FunctionType(resize.__code__, {}, "resize", ("a.png",))
        sys.modules["job_program"] = self.module = module
        self.addCleanup(sys.modules.pop, "job_program", None)
        self.told = []
        self.guard = Guard(
            AllowList([("job_program", "Job"), ("job_program", "resize")]),
            on_refusal=self.told.append,
        )

    def permitting(self):
        return Guard(self.guard.allow, on_refusal=self.told.append, build="any")

    def is_changed(self):
        return self.module.resize() != "resize a.png" or self.module.Job().run() != "run"

    def loaders(self, guard=None):
        guard = guard or self.guard
        words = {"build": guard.build, "on_refusal": self.told.append}
        old = Guard(guard.allow, fix_imports=True, **words)
        yield guard.loads
        yield lambda data: guard.loads(bytearray(data))
        yield lambda data: guard.loads(data, encoding="latin1")
        yield old.loads
        yield lambda data: old.Unpickler(io.BytesIO(data)).load()
        yield lambda data: guard.load(io.BytesIO(data + b"behind it"))
        yield lambda data: guard.Unpickler(io.BytesIO(data)).load()
        yield lambda data: guard.Unpickler(io.BufferedReader(io.BytesIO(data))).load()
        yield lambda data: type("Own", (guard.Unpickler,), {})(io.BytesIO(data)).load()

    def test_without_the_rule_each_does_harm(self):
        for what, data in HOSTILE.items():
            for number, _ in enumerate(self.loaders(self.permitting())):
                with self.subTest(what=what, number=number):
                    self.setUp()
                    guard = self.permitting()
                    self.assertTrue(guard.check(data).accepted)
                    list(self.loaders(guard))[number](data)
                    self.assertTrue(self.is_changed())
                    self.assertEqual(self.told, [])

    def test_each_way_to_load(self):
        for what, data in HOSTILE.items():
            for number, load in enumerate(self.loaders()):
                with self.subTest(what=what, number=number):
                    with self.assertRaises(Refused) as raised:
                        load(data)
                    self.assertFalse(self.is_changed())
                    error = raised.exception
                    self.assertIs(error.reason, Reason.BuildsImport)
                    self.assertEqual(data[error.at : error.at + 1], b"b")
                    self.assertIn('build="any" permits it', error.hint)
                    self.assertEqual(self.told.pop().verdict, error.verdict)
                    self.assertEqual(self.told, [])

    def test_nothing_permits_it_under_a_list_with_substitutes(self):
        guard = Guard(self.guard.allow | AllowList([("builtins", "bytearray")]))
        with self.assertRaises(Refused) as raised:
            guard.loads(HOSTILE["by GLOBAL"])
        self.assertIn("no guard of a list with substitutes permits it", raised.exception.hint)
        free = Guard(guard.allow, build="any")
        with self.assertRaises(Misused):
            free.loads(HOSTILE["by GLOBAL"])
        self.assertFalse(self.is_changed())

    def test_each_check(self):
        for what, data in HOSTILE.items():
            for build, reason in (("made", Reason.BuildsImport), ("any", None)):
                guard = Guard(self.guard.allow, build=build)
                for verdict in (
                    storklocker.check(data, guard.allow, build=build),
                    storklocker.check_row(data, guard.allow, build=build),
                    storklocker.check_row(data, guard.allow, one_unpickler=True, build=build),
                    guard.check(data),
                ):
                    with self.subTest(what=what, build=build):
                        self.assertIs(verdict.reason, reason)
        self.assertIs(storklocker.check(data, guard.allow).reason, Reason.BuildsImport)

    def test_the_function(self):
        data = HOSTILE["method of a class"]
        with self.assertRaises(Refused):
            storklocker.loads(data, self.guard.allow)
        self.assertFalse(self.is_changed())
        storklocker.loads(data, self.guard.allow, build="any")
        self.assertTrue(self.is_changed())

    def test_adapters(self):
        data = HOSTILE["method of a class"]
        for guard, is_accepted in ((self.guard, False), (self.permitting(), True)):
            (row,) = _rows.loaded([("a", data)], guard)
            self.assertEqual((row.accepted, self.is_changed()), (is_accepted, is_accepted))

    def test_other_guards_keep_the_rule(self):
        data = HOSTILE["method of a class"]
        for guard in (self.guard, self.permitting()):
            guard = guard.like(on_refusal=None)
            for other in (copy.copy(guard), pickle.loads(pickle.dumps(guard)),
                          guard.learning(os.devnull, enforce=True)):
                self.assertEqual(bool(other.check(data)), guard.build == "any")

    def test_a_list_has_the_last_word(self):
        names = {"job_program": ["Job", "resize"]}
        hostile = HOSTILE["defaults of a function"]
        for build in (None, "made", "any"):
            allow = AllowList(names, build=build)
            written = AllowList.from_text(allow.to_text())
            for it in (allow, written, allow | AllowList([]), pickle.loads(pickle.dumps(written))):
                self.assertEqual((it.build, it), (build, allow))
                for given in ("made", "any"):
                    is_accepted = (build or given) == "any"
                    found = [
                        storklocker.check(hostile, it, build=given),
                        storklocker.check_row(hostile, it, build=given),
                        Guard(it, build=given).check(hostile),
                    ]
                    self.assertEqual([one.accepted for one in found], 3 * [is_accepted])
                own = build != "any"
                self.assertEqual(storklocker.check(hostile, it).reason is None, not own)
        stricter = AllowList(names, build="any") | AllowList([], build="made")
        self.assertEqual(stricter.build, "made")
        self.assertNotEqual(AllowList(names, build="any"), AllowList(names))
        with self.assertRaisesRegex(ValueError, "build must be 'made' or 'any', not 'all'"):
            AllowList(names, build="all")

    def test_wrong_values(self):
        for wrong in ("none", None, True):
            for call in (Guard, lambda allow, build: storklocker.check(b"N.", allow, build=build)):
                with self.assertRaises(ValueError):
                    call(self.guard.allow, build=wrong)

    def test_under_a_list_with_substitutes(self):
        allow = self.guard.allow | AllowList([("builtins", "bytearray")])
        for build, error in (("made", Refused), ("any", Misused)):
            for data in HOSTILE.values():
                for load in self.loaders(Guard(allow, build=build)):
                    with self.assertRaises(error):
                        load(data)
                    self.assertFalse(self.is_changed())

    def test_installed(self):
        with storklocker.installed(self.guard):
            for data in HOSTILE.values():
                for load in INSTALLED:
                    with self.assertRaises(Refused):
                        load(data)
        self.assertFalse(self.is_changed())
        for load in INSTALLED:
            self.setUp()
            with storklocker.installed(self.permitting()):
                load(HOSTILE["method of a class"])
            self.assertTrue(self.is_changed())

    def test_what_pickles_hold(self):
        for what, data in HONEST.items():
            for load in self.loaders():
                with self.subTest(what=what, load=load):
                    self.assertEqual(repr(load(data))[:5], repr(pickle.loads(data))[:5])

    def test_the_memo_of_an_earlier_pickle(self):
        first, second = whole(name("Job"), b"\x94"), whole(b"h\x00", METHOD, b"b")
        data = first + whole(b"N") + second
        for kind in (io.BytesIO, Piped):
            reader = self.guard.Unpickler(kind(data))
            self.assertIs(reader.load(), self.module.Job)
            self.assertIsNone(reader.load())
            for _ in range(2 if kind is io.BytesIO else 1):
                with self.assertRaises(Refused) as raised:
                    reader.load()
                self.assertIs(raised.exception.reason, Reason.BuildsImport)
                self.assertEqual(raised.exception.at, len(data) - 2)
            self.assertFalse(self.is_changed())
            reader = self.permitting().Unpickler(kind(data))
            reader.load(), reader.load(), reader.load()
            self.assertTrue(self.is_changed())
            self.setUp()

    def test_a_row_of_one_unpickler(self):
        data = whole(name("Job"), b"\x94") + whole(b"h\x00", METHOD, b"b")
        for build, pickles in (("made", 1), ("any", 2)):
            row = storklocker.check_row(data, self.guard.allow, one_unpickler=True, build=build)
            self.assertEqual((row.accepted, row.pickles), (build == "any", pickles))

    def test_a_report_changes_nothing_that_is_loaded(self):
        guard = Guard(self.guard.allow, enforce=False, on_refusal=self.told.append)
        guard.loads(HOSTILE["method of a class"])
        self.assertTrue(self.is_changed())
        self.assertIs(self.told[0].verdict.reason, Reason.BuildsImport)


class Imported:
    """What the reader below imports. A call gives an instance."""


class Oracle(pickle._Unpickler):
    """CPython's reader, whose operations never fail, and which notes a BUILD that takes the import.
    """

    is_changed = False
    dispatch = dict(pickle._Unpickler.dispatch)

    def find_class(self, module, name):
        return Imported

    def load_build(self):
        self.stack.pop()
        self.is_changed |= self.stack[-1] is Imported

    dispatch[pickle.BUILD[0]] = load_build


def answers(code, count, gives):
    """Has the reader take so many objects, or None for those above a mark, and give one."""

    def load(self):
        if code == pickle.INST:
            self.readline(), self.readline()
        if count is None:
            self.pop_mark()
        else:
            del self.stack[len(self.stack) - count:]
        if gives:
            self.append(Imported())

    Oracle.dispatch[code[0]] = load


for codes, count, gives in (
    ((pickle.REDUCE, pickle.NEWOBJ), 2, True),
    ((pickle.NEWOBJ_EX,), 3, True),
    ((pickle.OBJ, pickle.INST, pickle.DICT, pickle.FROZENSET), None, True),
    ((pickle.APPENDS, pickle.SETITEMS, pickle.ADDITEMS), None, False),
    ((pickle.APPEND,), 1, False),
    ((pickle.SETITEM,), 2, False),
):
    for code in codes:
        answers(code, count, gives)


PARTS = [
    b"N", b"K\x01", b"cm\nC\n", b"cm\nC\n", text("m") + text("C") + b"\x93", b"(", b"(", b"0", b"1",
    b"2", b"2", b"h\x00", b"h\x01", b"g2\n", b"q\x00", b"r\x01\0\0\0", b"p2\n", b"\x94", b"}", b"]",
    b")", b"t", b"\x85", b"\x86", b"l", b"d", b"a", b"e", b"s", b"u", b"\x8f", b"\x90", b"\x91",
    b")R", b")\x81", b")}\x92", b"o", b"im\nC\n", b"Nb", b"}b", b"b", b"b", text("b"), b"C\x01b",
]  # fmt: skip


def made(chance, allow):
    """A random pickle: each instruction is one of which some pickle may be accepted."""
    data = b"\x80\x04"
    while len(data) < 40:
        part = chance.choice(PARTS)
        said = storklocker.check(data + part, allow, build="any")
        if said.reason is storklocker.Reason.Truncated:
            data += part
    for end in (b".", b"0" * 30 + b"N.", b"t.", b"lt."):
        for tail in (end, b"(" + end):
            if storklocker.check(data + tail, allow, build="any"):
                return data + tail
    return made(chance, allow)


class Random(unittest.TestCase):
    def test_what_the_reader_in_python_does(self):
        chance, allow, seen = random.Random(7), AllowList([("m", "C")]), {True: 0, False: 0}
        for _ in range(300):
            data = made(chance, allow)
            reader = Oracle(io.BytesIO(data))
            reader.load()
            seen[reader.is_changed] += 1
            verdict = storklocker.check(data, allow)
            self.assertEqual(not verdict, reader.is_changed, data)
            self.assertIn(verdict.reason, (None, Reason.BuildsImport))
        self.assertGreater(min(seen.values()), 50, seen)


if __name__ == "__main__":
    unittest.main()

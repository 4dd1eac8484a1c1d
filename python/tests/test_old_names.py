"""Names of Python 2 are permitted where what becomes of them is."""

import collections
import io
import os
import pickle
import sys
import tempfile
import types
import unittest
import unittest.mock

import storklocker
from storklocker import AllowList, Guard, Refused, _names
from streams import Minimal


class OldNames(unittest.TestCase):
    LISTED = AllowList(
        [
            ("builtins", "list"),
            ("copyreg", "_reconstructor"),
            ("functools", "reduce"),
        ]
    )

    def test_a_pair_is_permitted_where_what_becomes_of_it_is(self):
        guard = Guard(self.LISTED)
        for pickled, wanted in (
            (b"c__builtin__\nlist\n.", list),
            (b"cbuiltins\nlist\n.", list),
            (b"\x80\x02c__builtin__\nlist\n.", list),
            (b"\x80\x03cbuiltins\nlist\n.", list),
        ):
            with self.subTest(pickled=pickled):
                self.assertIs(guard.loads(pickled), wanted)
                self.assertIs(guard.load(io.BytesIO(pickled)), wanted)
                self.assertTrue(guard.check(pickled))
        self.assertEqual(guard.loads(b"c__builtin__\nreduce\n.").__name__, "reduce")
        # set isn't listed, and protocol 3 names what it means
        for pickled in (
            b"c__builtin__\nset\n.",
            b"\x80\x03c__builtin__\nlist\n.",
            b"c__builtin__\neval\n.",
        ):
            with self.subTest(pickled=pickled), self.assertRaises(Refused):
                guard.loads(pickled)
            with self.subTest(pickled=pickled), self.assertRaises(Refused):
                guard.load(io.BytesIO(pickled))

    def test_a_pickle_that_changes_its_protocol(self):
        guard = Guard(self.LISTED)
        self.assertIs(guard.loads(b"\x80\x02\x80\x04c__builtin__\nlist\n."), list)
        self.assertIs(guard.load(io.BytesIO(b"\x80\x02\x80\x04c__builtin__\nlist\n.")), list)
        for pickled in (
            b"\x80\x04\x80\x02c__builtin__\nlist\n.",
            b"\x80\x04\x80\x02c__builtin__\nset\n.",
        ):
            with self.subTest(pickled=pickled), self.assertRaises(Refused):
                guard.loads(pickled)
            with self.subTest(pickled=pickled), self.assertRaises(Refused):
                guard.load(io.BytesIO(pickled))

    def test_a_row_of_both(self):
        guard = Guard(self.LISTED)
        reader = guard.Unpickler(
            io.BytesIO(b"cbuiltins\nlist\n.\x80\x04cbuiltins\nlist\n.c__builtin__\nlist\n.")
        )
        self.assertEqual([reader.load(), reader.load()], [list, list])
        with self.assertRaises(Refused):  # under both lists, since a row is checked as one
            reader.load()
        reader = guard.Unpickler(io.BytesIO(2 * b"c__builtin__\nlist\n."))
        self.assertEqual([reader.load(), reader.load()], [list, list])

    def test_without_it_such_a_pair_is_refused_with_a_hint(self):
        guard = Guard(self.LISTED, fix_imports=False)
        data = b"c__builtin__\nlist\n."
        for call in (
            guard.loads,
            lambda it: guard.load(io.BytesIO(it)),
            lambda it: storklocker.loads(it, self.LISTED, fix_imports=False),
        ):
            with self.assertRaises(Refused) as raised:
                call(data)
            self.assertIn("builtins.list, which is listed", str(raised.exception))
            self.assertIn("fix_imports=True", str(raised.exception))
        self.assertFalse(storklocker.check(data, self.LISTED, fix_imports=False))
        with self.assertRaises(Refused) as raised:
            guard.loads(b"c__builtin__\neval\n.")
        self.assertNotIn("Python 3 calls it", raised.exception.hint)

    def test_an_old_name_that_the_process_has_given_to_a_module(self):
        made = types.ModuleType("Queue")  # its `__spec__` is None
        made.Queue = list
        with unittest.mock.patch.dict(sys.modules, Queue=made):
            allow = AllowList([("Queue", "Queue")])
            guard = Guard(allow, fix_imports=False)
            self.assertIs(guard.loads(b"cQueue\nQueue\n."), list)
            # the name is that of a module that is there, which `pickle` passes over
            self.assertIsNot(pickle.loads(b"cQueue\nQueue\n."), list)
            with self.assertRaises(Refused):
                Guard(allow).loads(b"cQueue\nQueue\n.")
            self.assertIs(Guard(allow).loads(b"\x80\x03cQueue\nQueue\n."), list)

    def test_each_pair_of_the_tables(self):
        import _compat_pickle

        for old in [
            *_compat_pickle.NAME_MAPPING,
            *((module, "name") for module in _compat_pickle.IMPORT_MAPPING),
        ]:
            seen = []

            class Seen(pickle._Unpickler):
                def find_class(self, module, name):
                    # (what pickle.py does before it imports)
                    new = _compat_pickle.NAME_MAPPING.get((module, name))
                    seen.append(new or (_compat_pickle.IMPORT_MAPPING.get(module, module), name))
                    return None

            data = f"c{old[0]}\n{old[1]}\n.".encode()
            Seen(io.BytesIO(data)).load()
            self.assertTrue(Guard(AllowList(seen)).check(data), old)
            is_meant = seen == [old] or _names.is_lost(old)
            self.assertEqual(bool(Guard(AllowList([old], dangerous=[old])).check(data)), is_meant)
            self.assertFalse(Guard(AllowList([("other", "name")])).check(data), old)

    def test_what_python_3_writes_in_old_protocols(self):
        allow = AllowList(
            [
                ("builtins", "range"),
                ("builtins", "set"),
                ("copyreg", "_reconstructor"),
                ("_codecs", "encode"),
                ("builtins", "FileNotFoundError"),
                ("builtins", "OSError"),
                ("collections", "OrderedDict"),
            ]
        )
        guard = Guard(allow)
        for value in ({1, 2}, range(3), b"\xff", collections.OrderedDict(a=1)):
            for protocol in range(6):
                data = pickle.dumps(value, protocol)
                self.assertEqual(guard.loads(data), value)
                self.assertEqual(guard.load(io.BytesIO(data)), value)
                self.assertEqual(guard.load(Minimal(data)), value)


OTHER = b"\x80\2cposix\nsystem\n."


class OldLists(unittest.TestCase):
    """A list with a name that only Python 2 has means that of Python 3."""

    TEXT = """version = 1
[imports]  # of copy_reg
"__builtin__" = [
    "set",  # is meant
]
copy_reg = ["_reconstructor"]
"""

    def test_it_works_for_each_protocol(self):
        for allow in (AllowList.from_text(self.TEXT), AllowList([("__builtin__", "set")])):
            for protocol in range(6):
                for value in ({1}, set):
                    data = pickle.dumps(value, protocol)
                    self.assertEqual(Guard(allow).loads(data), value)
                    self.assertTrue(storklocker.check(data, allow))
            self.assertTrue(Guard(allow).check(b"\x80\x04cbuiltins\nset\n."))
            for data in (b"c__builtin__\neval\n.", b"\x80\x03c__builtin__\nset\n."):
                self.assertFalse(Guard(allow).check(data))

    def test_it_is_told_once_by_its_line(self):
        with tempfile.TemporaryDirectory() as folder:
            path = os.path.join(folder, "list.toml")
            for text, line in ((self.TEXT, ", line 4:"), ("\n\n" + self.TEXT, None)):
                with open(path, "w") as file:
                    file.write(text)
                if line is None:
                    with self.assertRaises(AssertionError), self.assertLogs("storklocker"):
                        AllowList.from_file(path)
                    continue
                with self.assertLogs("storklocker", "WARNING") as told:
                    AllowList.from_file(path)
                self.assertIn(f"{path}{line} __builtin__.set is a name of", told.output[0])
                self.assertIn("and 1 more; the list means builtins.set", told.output[0])
        both = self.TEXT + 'builtins = ["set"]\ncopyreg = ["_reconstructor"]\n'
        with self.assertRaises(AssertionError), self.assertLogs("storklocker"):
            AllowList.from_text(both)  # (which other readers need)

    def test_what_it_means_is_as_dangerous(self):
        for pair in (("__builtin__", "eval"), ("__builtin__", "getattr")):
            with self.assertRaisesRegex(ValueError, "permits everything"):
                Guard(AllowList([pair]))
            Guard(AllowList([pair], dangerous=[pair]))

    def test_what_it_means_has_its_substitute(self):
        guard = Guard(AllowList([("__builtin__", "bytearray")]))
        old, new = b"c__builtin__\nbytearray\n(I5\ntR.", b"\x80\3cbuiltins\nbytearray\nK\5\x85R."
        for data in (old, new):
            self.assertEqual(pickle.loads(data), bytearray(5))
            with self.assertRaises(storklocker.Misused):
                guard.loads(data)

    def test_names_are_those_of_today(self):
        data = pickle.dumps({1}, 0)
        self.assertEqual(storklocker.imports(data), [("builtins", "set")])
        self.assertEqual(storklocker.missing(data, AllowList([])), [("builtins", "set")])
        old = storklocker.imports(data, fix_imports=False)
        self.assertEqual(old, [("__builtin__", "set")])

    def test_a_row_of_both(self):
        allow = AllowList([("builtins", "set"), ("copyreg", "_reconstructor")])
        old, new = b"c__builtin__\nset\n.", b"\x80\x03cbuiltins\nset\n."
        for data, accepted in ((old + old, True), (new + new, True), (old + new, True),
                               (new + old + old + new, True), (old + new + OTHER, False)):
            row = storklocker.check_row(data, allow)
            count = data.count(b".") - (not accepted)
            self.assertEqual((row.accepted, row.pickles), (accepted, count))
            if accepted:
                self.assertEqual((row.taken, row.imports), (len(data), data.count(b".")))
            else:
                self.assertEqual(row.at, len(data) - len(OTHER) + 2)
        row = storklocker.check_row(old + new, allow, one_unpickler=True)
        self.assertFalse(row)
        self.assertTrue(storklocker.check_row(old + pickle.dumps([1], 4), allow))
        self.assertFalse(storklocker.check_row(old + old, allow, fix_imports=False))


if __name__ == "__main__":
    sys.exit(unittest.main())

"""Limits on what loading costs, which are on by default."""

import ast
import asyncio
import copy
import io
import logging
import os
import pickle
import tempfile
import unittest
import zipfile
from pathlib import Path

import storklocker
from common import ROOT, SEEDS, needs
from storklocker import AllowList, Guard, Limits, Reason, Refused
from storklocker._lists import within
from storklocker.contrib import _rows, shelve
from streams import Piped

LIBRARY = Path(os.__file__).parent
logging.getLogger("storklocker").setLevel(logging.ERROR)
NOTHING = AllowList([])
FREE = Limits(levels=None, weight=None, work=None)
LISTED = "version = 2\n[imports]\n[limits]\nstack = 1000\n"


def doubled(times, leaf=b")"):
    """A dict with two keys whose hashes and comparison visit 2 ** times tuples."""
    return b"}" + 2 * (leaf + b"2\x86" * times + b"Ns") + b"."


ATTACK = doubled(30)
MILD = doubled(20)
"""An attack that a test can afford to load."""
DEEP = b"}" + b")" + b"\x85" * 5_000 + b"Ns."
LIMITED = [
    ("levels", 1_000, DEEP, Reason.DeepKey, len(DEEP) - 2),
    ("weight", 1_000_000, ATTACK, Reason.HeavyKeys, 63),
    ("work", 1_000_000, ATTACK, Reason.HeavyKeys, 63),
    ("clash", 3, b"\x8f(K\x00K\x01K\x02K\x03\x90.", Reason.ManyKeys, 10),
    ("memory", 743, b"](\x8f\x8fe.", Reason.MuchMemory, 5),
]
"""A limit that a pickle exceeds, the pickle, the reason, and where."""


def only(**limits):
    """These limits on costs alone."""
    return Limits(**{**dict.fromkeys(("levels", "weight", "work")), **limits})


class Visited:
    """A part of a key that counts how often it is hashed and compared."""

    times = 0

    def __hash__(self):
        Visited.times += 1
        return 7

    def __eq__(self, other):
        Visited.times += 1
        return True


class Counting(pickle.Unpickler):
    """Makes them of persistent ids."""

    def persistent_load(self, name):
        return Visited()


def visits_of(times):
    """How often a tuple's innermost parts are visited that is doubled so often."""
    Visited.times = 0
    Counting(io.BytesIO(doubled(times, b"Pvisited\n"))).load()
    return Visited.times


def zipped(name, data):
    """An archive as `torch.save` writes it."""
    out = io.BytesIO()
    with zipfile.ZipFile(out, "w") as file:
        file.writestr(name, data)
    return out.getvalue()


def from_shelf(guard, data):
    with tempfile.TemporaryDirectory() as folder:
        with shelve.open(Path(folder) / "jobs", guard) as shelf:
            shelf.dict[b"a"] = data
            return shelf["a"]


def from_row(guard, data):
    (row,) = _rows.loaded([("key", data)], guard)
    if not row.accepted:
        guard.loads(data)
    return row.value


def second_of(guard, data):
    """The second pickle of an Unpickler."""
    reader = guard.Unpickler(io.BytesIO(b"N." + data))
    reader.load()
    return reader.load()


WAYS = {
    "loads": lambda guard, data: guard.loads(data),
    "loads of a buffer": lambda guard, data: guard.loads(bytearray(data)),
    "loads with words": lambda guard, data: guard.loads(data, encoding="latin1"),
    "loads_async": lambda guard, data: asyncio.run(guard.loads_async(data)),
    "loads_async in a thread": lambda guard, data: asyncio.run(
        guard.loads_async(data[:-1] + b"B\0\0\1\0" + b"a" * 65_536 + b"0.")
    ),
    "load": lambda guard, data: guard.load(io.BytesIO(data)),
    "load from a buffer": lambda guard, data: guard.load(io.BufferedReader(io.BytesIO(data))),
    "load in pieces": lambda guard, data: guard.load(Piped(data)),
    "Unpickler": lambda guard, data: guard.Unpickler(io.BytesIO(data)).load(),
    "Unpickler in pieces": lambda guard, data: guard.Unpickler(Piped(data)).load(),
    "Unpickler, second pickle": second_of,
    "the function": lambda guard, data: storklocker.loads(data, guard.allow, limits=guard.limits),
    "a shelf": from_shelf,
    "rows": from_row,
}
INSTALLED = {
    "installed loads": lambda data: pickle.loads(data),
    "installed load": lambda data: pickle.load(io.BytesIO(data)),
    "installed Unpickler": lambda data: pickle.Unpickler(io.BytesIO(data)).load(),
    "installed _Unpickler": lambda data: pickle._Unpickler(io.BytesIO(data)).load(),
}
GUARDS = {
    "plain": Guard,
    "old names": lambda allow, **named: Guard(allow, fix_imports=True, **named),
    "substitutes": lambda allow, **named: Guard(allow | AllowList([bytearray]), **named),
    "a list file": lambda allow, **named: Guard(AllowList.from_text(LISTED), **named),
}


class Defaults(unittest.TestCase):
    def test_weight_is_counted_up_to_a_bound(self):
        """So `work` alone doesn't bound what a key costs."""
        for work, is_accepted in ((2_097_149, False), (2_097_150, True), (100_000_000, True)):
            limits = Limits(weight=None, work=work)
            verdict = storklocker.check(doubled(40), NOTHING, limits=limits)
            self.assertIs(verdict.accepted, is_accepted)
        self.assertFalse(storklocker.check(doubled(40), NOTHING))  # the control

    def test_the_attack_works_without_limits(self):
        self.assertEqual(len(ATTACK), 128)
        self.assertTrue(storklocker.check(ATTACK, NOTHING, limits=FREE))
        for times in (4, 8, 16):  # (Python 3.14 keeps hashes of tuples, and compares as others do)
            self.assertGreaterEqual(visits_of(times), 2**times)

    def test_each_way_in(self):
        for kind, make in GUARDS.items():
            guard, free = make(NOTHING), make(NOTHING, limits=FREE)
            for way, load in WAYS.items():
                if way == "the function" and kind == "old names":
                    continue
                for data, reason in ((ATTACK, "HeavyKeys"), (DEEP, "DeepKey")):
                    with self.subTest(kind=kind, way=way, reason=reason):
                        with self.assertRaises(Refused) as raised:
                            load(guard, data)
                        self.assertEqual(raised.exception.reason.name, reason)
                with self.subTest(kind=kind, way=way):
                    self.assertEqual(len(load(free, MILD)), 1)

    def test_an_installed_guard(self):
        for words in ({}, {"limits": FREE}):
            with storklocker.installed(Guard(NOTHING, **words)):
                for way, load in INSTALLED.items():
                    with self.subTest(way=way):
                        if words:
                            self.assertEqual(len(load(MILD)), 1)
                            continue
                        with self.assertRaises(Refused):
                            load(ATTACK)

    @needs("module:numpy")
    def test_files_of_libraries(self):
        from storklocker.contrib import joblib, numpy, torch

        header = b"\x93NUMPY\1\0v\0" + b"{'descr': '|O', 'fortran_order': False, 'shape': (), }"
        header = header.ljust(127) + b"\n"
        for load in (
            lambda guard, data: joblib.load_joblib(data, guard),
            lambda guard, data: numpy.load_npy(header + data, guard),
            lambda guard, data: torch.check_archive(zipped("a/data.pkl", data), guard),
            lambda guard, data: torch.check_legacy(b"N." * 4 + data, guard),
        ):
            for data in (ATTACK, DEEP):
                with self.assertRaises(Refused) as raised:
                    load(Guard(NOTHING), data)
                self.assertIn(raised.exception.reason, (Reason.HeavyKeys, Reason.DeepKey))
            try:
                load(Guard(NOTHING, limits=FREE), MILD)
            except pickle.UnpicklingError as error:
                self.assertEqual(str(error), "the pickle isn't an array: dict")

    def test_each_check(self):
        for words, answer in (({}, "no at 63: HeavyKeys"), ({"limits": FREE}, "yes: 128 bytes")):
            for said in (
                storklocker.check(ATTACK, NOTHING, **words),
                storklocker.check_row(ATTACK, NOTHING, **words),
                storklocker.check_row(ATTACK, NOTHING, one_unpickler=True, **words),
                Guard(NOTHING, **words).check(ATTACK),
                Guard(NOTHING, fix_imports=True, **words).check(ATTACK),
            ):
                self.assertTrue(str(said).replace("in pickle 0 ", "").startswith(answer), said)
            self.assertEqual(_rows.checked([("a", ATTACK)], Guard(NOTHING, **words))[0].accepted,
                             "limits" in words)

    def test_it_takes_no_time(self):
        for load in WAYS.values():
            with self.assertRaises(Refused):
                load(Guard(NOTHING), doubled(200))  # (a visit of each part never ends)

    def test_a_guard_that_only_reports(self):
        told = []
        guard = Guard(NOTHING, enforce=False, on_refusal=told.append)
        self.assertEqual(len(guard.loads(MILD)), 1)
        self.assertIs(told[0].verdict.reason, Reason.HeavyKeys)

    def test_what_a_guard_makes_has_its_limits(self):
        for guard in (Guard(NOTHING), Guard(NOTHING, limits=FREE)):
            for other in (
                copy.copy(guard), copy.deepcopy(guard), pickle.loads(pickle.dumps(guard)),
                guard.learning(os.devnull, enforce=True), guard.for_children(),
            ):
                with self.subTest(guard=guard):
                    self.assertEqual(bool(other.check(ATTACK)), bool(guard.check(ATTACK)))

    def test_an_honest_pickle_is_loaded(self):
        guard = Guard(NOTHING)
        for value in ({(1, "a", (2.0, None)): [1 << 90]}, {"b" * 900: "c"}, [{1: {}}] * 9):
            for protocol in range(pickle.HIGHEST_PROTOCOL + 1):
                self.assertEqual(guard.loads(pickle.dumps(value, protocol)), value)
        sets = {frozenset("ab"): {1, 2, (3, 4)}}
        self.assertEqual(guard.loads(pickle.dumps(sets, 4)), sets)


class Numbers(unittest.TestCase):
    def test_each_limit(self):
        for name, limit, data, reason, at in LIMITED:
            with self.subTest(name=name):
                limits = only(**{name: limit})
                self.assertTrue(storklocker.check(data, NOTHING, limits=FREE))
                verdict = storklocker.check(data, NOTHING, limits=limits)
                self.assertEqual((verdict.reason, verdict.at), (reason, at))
                row = storklocker.check_row(b"N." + data, NOTHING, limits=limits)
                self.assertEqual((row.reason, row.at, row.pickles), (reason, at + 2, 1))

    def test_one_more_is_enough(self):
        for name, data, least in (
            ("levels", b"})\x85\x85Ns.", 3),
            ("weight", b"})\x85\x85Ns.", 3),
            ("work", b"}(NNNNu.", 2),
            ("clash", b"\x8f(K\x00K\x01K\x02K\x03\x90.", 4),
            ("memory", b"](\x8f\x8fe.", 744),
        ):
            with self.subTest(name=name):
                self.assertTrue(storklocker.check(data, NOTHING, limits=Limits(**{name: least})))
                less = Limits(**{name: least - 1})
                self.assertFalse(storklocker.check(data, NOTHING, limits=less))

    def test_the_defaults(self):
        held = Limits()._asdict()
        wanted = {"levels": 1_000, "weight": 1_000_000, "work": 100_000_000}
        self.assertEqual({name: held[name] for name in wanted}, wanted)
        self.assertEqual((held["clash"], held["memory"]), (None, None))
        level = b"})" + b"\x85" * 998
        self.assertTrue(storklocker.check(level + b"\x85Ns.", NOTHING))
        self.assertFalse(storklocker.check(level + b"\x85\x85Ns.", NOTHING))

    def test_greater_numbers_are_no_limits(self):
        for name in ("levels", "weight", "work", "clash", "memory"):
            most = 2**32 - 1 if name in ("levels", "weight") else 2**64 - 1
            limits = only(**{name: most})
            self.assertTrue(storklocker.check(ATTACK, NOTHING, limits=limits))

    def test_the_smaller_limit_applies(self):
        one, other = Limits(levels=4, work=9), Limits(work=7, clash=8)
        both = Limits(levels=4, work=7, clash=8)
        self.assertEqual(within(one, other), both)
        self.assertEqual(within(other, one), both)
        self.assertEqual(within(FREE, Limits(levels=900)), within(Limits(levels=900), FREE))
        self.assertEqual(within(FREE, Limits(levels=900)), only(levels=900))
        self.assertEqual(within(Limits(clash=5), Limits(clash=3)).clash, 3)

    def test_wrong_values(self):
        for wrong, error in ((-1, ValueError), (2**64, ValueError), ("9", TypeError)):
            for name in ("levels", "weight", "work", "clash", "memory"):
                with self.assertRaises(error):
                    Limits(**{name: wrong})


class Imports(unittest.TestCase):
    def test_imports_and_missing_ignore_them(self):
        data = b"ca\nb\n0" + ATTACK
        for limits in (None, Limits(weight=1)):
            self.assertEqual(storklocker.imports(data, limits=limits), [("a", "b")])
            self.assertEqual(storklocker.missing(data, NOTHING, limits=limits), [("a", "b")])

    def test_names_that_are_many_ignore_them(self):
        from storklocker import _missing

        data, most = ATTACK[:-1] + b"0ca\nb\ncc\nd\n\x86.", _missing.MOST_NAMES
        _missing.MOST_NAMES = 8
        self.addCleanup(setattr, _missing, "MOST_NAMES", most)
        found, is_cut = NOTHING.missing_in(data * 1000)
        self.assertEqual(found[:2], [("a", "b"), ("c", "d")])

    def test_a_refusal_that_comes_first_is_told(self):
        data = b"ca\nb\n0" + ATTACK
        verdict = storklocker.check(data, NOTHING)
        self.assertEqual((verdict.reason, verdict.at), (Reason.ImportOffList, 0))
        self.assertEqual(verdict.missing, (("a", "b"),))
        data = ATTACK[:-1] + b"0ca\nb\n."
        verdict = storklocker.check(data, NOTHING)
        self.assertEqual((verdict.reason, verdict.at, verdict.missing), (Reason.HeavyKeys, 63, ()))


class Hints(unittest.TestCase):
    def test_it_names_the_limit(self):
        for data, limits, hint in (
            (DEEP, None, "more levels of tuples than the limit levels, 1,000: Limits(levels=..)"),
            (ATTACK, None, "than the limit weight, 1,000,000, or all keys weigh more than the limit"
             " work, 100,000,000: Limits(weight=.., work=..)"),
            (ATTACK, only(work=5), "all keys weigh more than the limit work, 5: Limits(work=..)"),
            (ATTACK, only(clash=5), "the limit clash, 5"),
            (b"]" * 99 + b"." , only(memory=5), "more bytes than the limit memory, 5"),
        ):
            for allow in (NOTHING, AllowList.from_text(LISTED)):
                with self.assertRaises(Refused) as raised:
                    Guard(allow, limits=limits).loads(data)
                self.assertIn(hint, raised.exception.hint)


class Real(unittest.TestCase):
    def test_what_picklers_write_is_accepted(self):
        """`test_cpython` does the same for the pickles of CPython's own tests."""
        data = [path.read_bytes() for path in (ROOT / "examples" / "pickles").iterdir()]
        trees = [ast.parse(path.read_bytes()) for path in sorted(LIBRARY.glob("[a-f]*.py"))]
        data += [pickle.dumps(tree, protocol) for tree in trees for protocol in (2, 4)]
        count = 0
        for it in (*SEEDS, *data):
            pairs = storklocker.check(it, NOTHING, limits=FREE).missing
            allow = AllowList([pair for pair in pairs if pair.name])
            if storklocker.check(it, allow, limits=FREE, build="any"):
                count += 1
                self.assertEqual(str(storklocker.check(it, allow))[:3], "yes", it[:200])
        self.assertGreater(count, 100)


if __name__ == "__main__":
    unittest.main()

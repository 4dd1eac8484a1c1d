"""Lists that are written, and lists of classes and functions."""

import collections
import enum
import json
import operator
import os
import pickle
import random
import stat
import tempfile
import threading
import unittest
from pathlib import Path
from unittest import mock

import storklocker
from storklocker import AllowList, Limits, lists, substitutes
from storklocker._limits import BUILDS, COSTS, FURTHEST, MOST_SAID

HERE = "test_writing"
LETTERS = "ab\"\\'\n\r\t\0\x7f\x85\u2028\u00e9\u4e2d\U0001f600. =[]{}#-_"


class Shop:
    """What pickles name by a name with dots."""

    class Color(enum.Enum):
        RED = 1

    def open(self):
        return self


def local():
    class Inner:
        pass

    return Inner


Moved = type("Moved", (), {"__module__": HERE, "__qualname__": "Shop"})
nameless = lambda: None  # noqa: E731


def limited(**limits):
    rows = "".join(f"{name} = {str(value).lower()}\n" for name, value in limits.items())
    return AllowList.from_text(f"version = 2\n[imports]\n[limits]\n{rows}")


class Texts(unittest.TestCase):
    def reads_back(self, allow):
        text = allow.to_text()
        again = AllowList.from_text(text)
        self.assertEqual((again, again.to_text()), (allow, text))
        return text

    def test_the_shipped_lists(self):
        for name in lists.__all__:
            self.reads_back(getattr(lists, name))
        self.reads_back(lists.NUMPY | limited(passed=1 << 30))

    def test_any_names(self):
        made = random.Random(1)

        def word():
            return "".join(made.choice(LETTERS) for _ in range(made.randint(1, 6)))

        for number in range(500):
            allow = AllowList((word(), word()) for _ in range(made.randint(0, 6)))
            self.reads_back(allow)
            more = {"large": True} if number % 2 else {}
            self.reads_back(allow | limited(stack=number, **more))
        self.reads_back(AllowList([("m", name) for name in map(str, range(1000))]))

    def test_limits(self):
        for limits in ({}, {"stack": 7, "passed": 99}, {"large": True}, {"large": True, "memo": 0}):
            allow = limited(**limits)
            self.assertEqual(allow.limits, Limits(**limits))
            self.reads_back(allow)
        for text in ("[limits]", "[rules]"):
            self.assertNotIn(text, self.reads_back(AllowList([])))

    def test_limits_on_costs_and_the_rule(self):
        for name in COSTS:
            most = FURTHEST.get(name, MOST_SAID[name]) - 1
            for number in (0, 7, COSTS[name][0] or most, most):
                allow = limited(**{name: number})
                self.assertEqual(allow.limits, Limits(**{name: number}))
                if number != COSTS[name][0]:
                    self.assertIn(f"\n{name} = {number}\n", self.reads_back(allow))
            free = AllowList([], limits=Limits(**{name: None}))
            self.assertEqual(AllowList.from_text(self.reads_back(free)), free)
            said = limited(**{name: MOST_SAID[name]})
            self.assertIsNone(getattr(said.limits, name))
            if name not in FURTHEST:
                made = AllowList([], limits=Limits(**{name: MOST_SAID[name]}))
                with self.assertRaisesRegex(ValueError, f"in a list file {name} is below "):
                    made.to_text()
        for build in BUILDS:
            allow = AllowList([("a", "b")], build=build)
            self.assertIn(f'\n[rules]\nbuild = "{build}"\n', self.reads_back(allow))
            self.assertEqual(AllowList.from_text(allow.to_text()).build, build)
            self.assertEqual(allow.limits, None)
            self.reads_back(allow | limited(levels=7))

    def test_it_is_sorted_and_always_the_same(self):
        allow = AllowList([("b.c", "D"), ("a", "c"), ("a", "b")])
        wanted = 'version = 2\n\n[imports]\na = ["b", "c"]\n"b.c" = ["D"]\n'
        self.assertEqual(self.reads_back(allow), wanted)

    def test_substitutes_and_what_is_meant(self):
        names = [("builtins", "getattr"), ("functools", "partial"), ("_operator", "attrgetter")]
        names += [("operator", "methodcaller"), ("builtins", "eval"), ("a.b", "C.d")]
        said = {
            "builtins.getattr": substitutes.getattr({Shop: ["open"], "nowhere.Color": None}),
            "functools.partial": substitutes.partial({json.loads: ["cls"], "shutil.copy": []}),
            "_operator.attrgetter": substitutes.attrgetter("name", "price.sum"),
            "operator.methodcaller": substitutes.methodcaller("upper"),
        }
        meant = ["builtins.eval", "a.b:C.d"]
        text = self.reads_back(AllowList(names, substitutes=said, dangerous=meant))
        for row in (
            '"a.b:C.d" = "dangerous"',
            '"builtins.getattr" = "open of test_writing.Shop; members of nowhere.Color"',
            '"functools.partial" = "cls of json.loads; shutil.copy"',
            '"_operator.attrgetter" = "name, price.sum"',
        ):
            parts = set(row.rpartition(" = ")[2].strip('"').split("; "))
            found = next(it for it in text.splitlines() if it.startswith(row.split(" = ")[0]))
            self.assertEqual(set(found.rpartition(" = ")[2].strip('"').split("; ")), parts)

    def test_what_no_file_can_say(self):
        guard = storklocker.Guard(AllowList([]))
        for pair, made in (
            (("torch.storage", "_load_from_bytes"), substitutes.load_from_bytes(guard)),
            (("builtins", "getattr"), substitutes.getattr({local(): None})),
            (("builtins", "getattr"), substitutes.getattr({Shop: ["a; b"]})),
            (("builtins", "getattr"), substitutes.getattr({Shop: ["members"]})),
            (("other", "getattr"), substitutes.getattr({Shop: ["open"]})),
            (("operator", "attrgetter"), substitutes.attrgetter('a"\n"b')),
        ):
            allow = AllowList([pair], substitutes={pair: made})
            with self.subTest(pair=pair), self.assertRaisesRegex(ValueError, "no list file"):
                allow.to_text()
        odd = AllowList([("a", 'b" = "x"\n')], dangerous=[("a", 'b" = "x"\n')])
        with self.assertRaises(ValueError):
            odd.to_text()


class Files(unittest.TestCase):
    def setUp(self):
        held = tempfile.TemporaryDirectory()
        self.addCleanup(held.cleanup)
        self.folder = Path(held.name)
        self.path = self.folder / "list.toml"

    def test_a_file_keeps_its_mode_and_a_link_its_place(self):
        AllowList([("a", "b")]).to_file(self.path)
        mask = os.umask(0)
        os.umask(mask)
        self.assertEqual(stat.S_IMODE(self.path.stat().st_mode), 0o666 & ~mask)
        self.path.chmod(0o640)
        link = self.folder / "link.toml"
        link.symlink_to(self.path)
        AllowList([("a", "c")]).to_file(link)
        self.assertTrue(link.is_symlink())
        self.assertEqual(stat.S_IMODE(self.path.stat().st_mode), 0o640)
        self.assertEqual(AllowList.from_file(str(self.path)), AllowList([("a", "c")]))
        self.assertEqual(sorted(self.folder.iterdir()), [link, self.path])

    def test_a_failure_leaves_the_file(self):
        AllowList([("a", "b")]).to_file(self.path)
        before = self.path.read_bytes()
        with mock.patch("os.replace", side_effect=KeyboardInterrupt):
            with self.assertRaises(KeyboardInterrupt):
                AllowList([]).to_file(self.path)
        odd = AllowList([("o", "p")], substitutes={("o", "p"): substitutes.attrgetter("a")})
        with self.assertRaises(ValueError):
            odd.to_file(self.path)
        self.assertEqual((self.path.read_bytes(), [*self.folder.iterdir()]), (before, [self.path]))
        with self.assertRaises(OSError):
            AllowList([]).to_file(self.folder)
        with self.assertRaises(OSError):
            AllowList([]).to_file(self.folder / "nowhere" / "list.toml")

    def test_a_reader_never_sees_half_a_file(self):
        lengths = [AllowList([("m", str(k)) for k in range(count)]) for count in (1, 5000)]
        lengths[0].to_file(self.path)
        ends = threading.Event()

        def write():
            while not ends.is_set():
                for allow in lengths:
                    allow.to_file(self.path)

        writers = [threading.Thread(target=write) for _ in range(2)]
        for writer in writers:
            writer.start()
        try:
            for _ in range(100):
                self.assertIn(AllowList.from_file(self.path), lengths)
        finally:
            ends.set()
            for writer in writers:
                writer.join()


class Objects(unittest.TestCase):
    def test_a_pickle_names_them_so(self):
        things = [Shop, Shop.Color, Shop.open, collections.OrderedDict, len, operator.add]
        allow = AllowList([*things, ("a", "b")])
        guard = storklocker.Guard(allow)
        for it in things:
            self.assertIs(guard.loads(pickle.dumps(it, 4)), it)
        self.assertIn((HERE, "Shop.Color"), allow)
        self.assertEqual(len(allow), len(things) + 1)

    def test_what_no_pickle_names(self):
        main = type("Main", (), {"__module__": "__main__"})
        lost = type("Lost", (), {"__module__": "no_such_module"})
        for it, words in (
            (local(), "is defined in a function"),
            (nameless, "is a lambda"),
            (Moved, "isn't what a pickle finds as test_writing.Shop"),
            (lost, "isn't what a pickle finds as no_such_module.Lost"),
            (main, "differs in each program"),
            (type(None), "isn't what a pickle finds as builtins.NoneType"),
            ([].append, "belongs to an object"),
        ):
            with self.subTest(it=it), self.assertRaisesRegex(ValueError, words):
                AllowList([Shop, it])
        for it in (Shop(), Shop().open, 5, Shop.Color.RED):
            with self.subTest(it=it), self.assertRaisesRegex(TypeError, "item 0 must be two"):
                AllowList([it])
        for it in (Shop, Shop.Color, len):
            with self.subTest(it=it), self.assertRaisesRegex(TypeError, "takes pairs"):
                AllowList(it)


if __name__ == "__main__":
    unittest.main()

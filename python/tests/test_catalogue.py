"""What is known of names stands in the catalogue, and what the package ships is made from it."""

import enum
import importlib
import sys
import tempfile
import unittest
from pathlib import Path

from common import PYTHON
from storklocker import lists
from storklocker._facts import EVERYTHING, PACKAGES
from storklocker._names import renamed
from storklocker._objects import found
from storklocker._reader import declared
from storklocker._table import TABLE, substitute_of
from storklocker.scanning import dangers

sys.path.append(str(PYTHON / "catalogue"))
import describe  # noqa: E402
import elsewhere  # noqa: E402
import rows as catalogue  # noqa: E402
import shipping  # noqa: E402


MOST_UNJUDGED = 599
"""The listed names whose rows don't say how a call of them was judged."""


class Shipped(unittest.TestCase):
    def test_it_is_what_the_catalogue_makes(self):
        for path, text in shipping.texts():
            self.assertEqual(path.read_text(encoding="utf-8"), text, path.name)

    def test_a_changed_row_changes_it(self):
        held = dict(catalogue.rows())
        before = shipping.front(held.values())
        held["os.system"] = held["os.system"]._replace(does="nothing", by="read")
        self.assertNotEqual(shipping.front(held.values()), before)


class Elsewhere(unittest.TestCase):
    def test_files_that_have_names_are_known(self):
        self.assertEqual(sorted(elsewhere.counted()), sorted(elsewhere.reasons()))


class Rows(unittest.TestCase):
    def setUp(self):
        self.rows, self.words = catalogue.rows(), catalogue.words()

    def test_every_listed_name_has_one(self):
        for name in lists.__all__:
            word = shipping.word_of(name)
            for pair in getattr(lists, name):
                self.assertIn(word, self.rows[".".join(renamed(pair))].lists.split(","), pair)

    def answer_of(self, name, pair):
        """Why a list may have a name: what judges its calls, what they do, or its kind."""
        today = renamed(pair)
        row = self.rows.get(".".join(today), catalogue.Row(".".join(today)))
        if row.substitute or today in map(renamed, declared(getattr(lists, name))):
            return "a substitute"
        if row.does and self.words[row.does].severity == "harmless":
            return row.by
        package = self.rows.get(f"{today[0].partition('.')[0]}.*")
        if package and package.substitute == "any":
            return "its package's"
        return row.kind if row.kind in ("enum", "exception", "value") else ""

    def test_every_listed_name_has_an_answer(self):
        for name in lists.__all__:
            for pair in getattr(lists, name):
                self.assertTrue(self.answer_of(name, pair), pair)
        for pair in (("collections", "namedtuple"), ("os", "system")):
            self.assertFalse(self.answer_of("COLLECTIONS", pair))  # (the control)

    def test_an_answer_is_true(self):
        """As far as this Python has the names."""
        for name, pair in {(name, renamed(pair)) for name in lists.__all__
                           for pair in getattr(lists, name)}:
            try:
                it = found(*pair)
            except Exception:  # (whatever a library raises that wants settings)
                continue
            answer = self.answer_of(name, pair) if it is not None else ""
            if answer == "exception":
                self.assertTrue(issubclass(it, BaseException), pair)
            elif answer == "enum":
                self.assertTrue(issubclass(type(it), (enum.Enum, enum.EnumMeta)), pair)
            elif answer == "value":
                self.assertFalse(callable(it), pair)
            elif answer == "its package's":
                is_error = isinstance(it, type) and issubclass(it, BaseException)
                self.assertTrue(
                    is_error or not callable(it) or substitute_of(pair) is not None, pair)

    def test_a_kind_is_true(self):
        """As far as this Python has the names, some of which differ between versions."""
        told = [(name, kind) for name, _, kind, _ in describe.described()
                if kind is not None and self.rows[name].lists]
        wrong = [name for name, kind in told if self.rows[name].kind not in ("", kind)]
        self.assertEqual(wrong, [])
        self.assertGreater(len(told), 200)
        self.assertLess(sum(not self.rows[name].kind for name, _ in told), len(told) // 20)

    @unittest.skipIf(sys.implementation.name == "pypy", "PyPy's classes have other members")
    def test_no_state_does_more(self):
        """As far as this Python has the names: no row says less of a state than its class does."""
        rank, more, told = describe.STATES.index, [], 0
        for name, _, _, state in describe.described():
            said = self.rows[name].state
            told += bool(state)
            if state and (not said or rank(said) < rank(state)):
                more.append((name, said, state))
        self.assertLessEqual(len(more), told // 20, more)  # (those of other versions)
        self.assertEqual([it for it in more if it[1]], [])
        self.assertGreater(told, 200)
        self.assertEqual(
            [describe.state_of(it) for it in (unittest.TestCase, Path, enum.Enum, object, len)],
            ["attributes", describe.state_of(Path), "refused", "refused", None])

    def test_how_a_row_was_judged(self):
        """Where nobody has judged a name, its row doesn't say how; dangers with an example run."""
        for row in self.rows.values():
            if row.example:
                self.assertEqual(row.by, "run", row.name)
            if row.by == "derived":
                self.assertIn(row.kind, ("", "class", "enum", "exception"), row.name)
        unsaid = [row.name for row in self.rows.values() if row.lists and not row.by]
        self.assertLessEqual(len(unsaid), MOST_UNJUDGED, unsaid[:9])

    def test_every_danger_has_one(self):
        for name, row in dangers.known().rows.items():
            if not row.why.startswith("It leads to"):
                self.assertTrue(self.rows[name].does, name)
        for module, names in EVERYTHING.items():
            for name in names.split():
                self.assertEqual(self.rows[f"{module}.{name}"].permits, "everything")

    def test_every_substitute_has_one(self):
        for pair in TABLE:
            row = self.rows[".".join(pair)]
            module = importlib.import_module(f"storklocker.{row.substitute}")
            self.assertIn(pair, module.TABLE)
        for row in self.rows.values():
            is_needed = not row.before or sys.version_info < tuple(map(int, row.before.split(".")))
            if row.substitute not in ("", "any") and is_needed and row.pair not in TABLE:
                self.assertIsNotNone(substitute_of(row.pair), row.name)
        self.assertEqual(sorted(PACKAGES), sorted(
            row.name[:-2] for row in self.rows.values() if row.substitute == "any"))

    def test_a_name_is_spelled_as_old_protocols_do(self):
        spelled = {name: self.rows[name].spellings for name in ("builtins.set", "uuid.UUID")}
        self.assertEqual(spelled["builtins.set"], {("builtins", "set"), ("__builtin__", "set")})
        self.assertEqual(spelled["uuid.UUID"], {("uuid", "UUID")})


class Reader(unittest.TestCase):
    def fault_of(self, *lines, file="python.txt"):
        """What the reader says of a file with these lines."""
        with tempfile.TemporaryDirectory() as folder:
            words = (catalogue.HERE / "words.txt").read_text(encoding="utf-8")
            Path(folder, "words.txt").write_text(words, encoding="utf-8")
            for name in ("python.txt", "numpy.txt"):
                text = "".join(f"{line}\n" for line in lines) if name == file else ""
                Path(folder, name).write_text(text, encoding="utf-8")
            try:
                catalogue.rows(Path(folder))
            except ValueError as error:
                return str(error)
        return ""

    def test_a_fault_is_told(self):
        self.assertEqual(self.fault_of("# Words.", "a.b  does=command", "a.c  is=class"), "")
        for said, *lines in (
            ("sorted", "a.c", "a.b"),
            ("twice", "a.b", "a.b"),
            ("is no field", "a.b  kind=class"),
            ("there twice", "a.b  is=class  is=class"),
            ("no word of words.txt", "a.b  does=harm"),
            ("none of class, enum", "a.b  is=klass"),
            ("nobody says how", "a.b  does=nothing"),
            ("its example does nothing", "a.b  example=a.b()"),
            ("lists aren't sorted", "a.b  lists=torch,numpy"),
            ("its file isn't python.txt", "numpy.b  is=class"),
        ):
            self.assertIn(said, self.fault_of(*lines))
        self.assertIn("its file isn't numpy.txt", self.fault_of("a.b", file="numpy.txt"))

    def test_what_is_written_is_read(self):
        held = catalogue.rows()
        for path in catalogue.files():
            text = path.read_text(encoding="utf-8")
            head = "".join(f"{line}\n" for line in text.splitlines() if line.startswith("#"))
            body = "".join(catalogue.text_of(held[it.name]) for it in catalogue.read(path))
            self.assertEqual(text, head + body, path.name)
            longest = max((len(it) for it in text.splitlines() if " " in it.strip()), default=0)
            self.assertLessEqual(longest, 100, path.name)


if __name__ == "__main__":
    unittest.main()

"""The starter lists of Python's library, with its objects, under this Python."""

import pickle
import sys
import unittest
import warnings

import storklocker
from common import PYTHON
from storklocker import AllowList, Guard, lists
from storklocker._meant import of as meant_in
from storklocker._names import renamed
from storklocker.scanning.dangers import list_findings
from storklocker.scanning.severity import DANGER

sys.path.insert(0, str(PYTHON / "lists"))
import of_python  # noqa: E402

sys.path.pop(0)


def today(allow):
    """A list without the names that only Python 2 has."""
    said = {pair: it for pair, it in meant_in(allow).substitutes.items() if renamed(pair) == pair}
    return AllowList([pair for pair in allow if renamed(pair) == pair], substitutes=said)


class Starters(unittest.TestCase):
    def test_their_objects_load_as_they_were(self):
        warnings.simplefilter("ignore")
        for name, make in of_python.OBJECTS.items():
            allow, count = getattr(lists, name), 0
            guard, short = Guard(allow), Guard(today(allow))
            for value in make():
                for protocol in range(6):
                    data = pickle.dumps(value, protocol)
                    with self.subTest(name=name, value=value, protocol=protocol):
                        self.assertTrue(storklocker.check(data, allow))
                        plain = pickle.loads(data)
                        for loaded in (guard.loads(data), short.loads(data)):
                            self.assertIs(type(loaded), type(plain))
                            self.assertEqual(repr(loaded), repr(plain))
                count += 1
            self.assertGreater(count, 3, name)

    def test_names_of_later_pythons(self):
        for name in ("InvalidWriteError", "UnnamedSectionDisabledError"):
            self.assertIn(("configparser", name), lists.EXCEPTIONS)
        self.assertIn(("django.utils.safestring", "SafeText"), lists.DJANGO)
        self.assertIn(("ConfigParser", "InvalidWriteError"), lists.EXCEPTIONS)

    def test_lint_finds_no_danger(self):
        for name in lists.__all__:
            allow = getattr(lists, name)
            found = [it.name for it in list_findings(allow) if it.severity == DANGER]
            self.assertEqual(found, [], name)
            self.assertEqual(meant_in(allow).dangerous, frozenset())
            Guard(allow)

    def test_a_header_names_versions(self):
        for name in lists.__all__:
            file = PYTHON / "storklocker" / "lists" / f"{name.lower()}.toml"
            head = file.read_text(encoding="utf-8").partition("version =")[0]
            self.assertRegex(head, r"tested with \w", name)
            for word in {pair[1] for pair in meant_in(getattr(lists, name)).substitutes}:
                self.assertIn(word, head)

    def test_they_have_names(self):
        both = AllowList.shipped("torch", "pandas")
        self.assertEqual(both, lists.TORCH_TENSORS | lists.PANDAS)
        for word in ("@torch,@pandas", " @pandas , torch_tensors".strip()):
            self.assertEqual(AllowList.from_file(word), both)
        self.assertEqual(Guard.from_file("@torch,@pandas", reload=1).allow, both)
        for name, word in zip(lists.__all__, lists.words()):
            self.assertEqual(AllowList.shipped(word), getattr(lists, name))
            self.assertEqual(AllowList.shipped(name), getattr(lists, name))
        self.assertEqual(len(AllowList.shipped()), 0)
        for wrong in ("nothing", "@torch, @", ""):
            with self.assertRaisesRegex(ValueError, "isn't one of the lists @celery, "):
                AllowList.shipped(wrong)

    def test_they_go_together(self):
        own = {"builtins.getattr": storklocker.substitutes.getattr({"shop.Color": None})}
        every = AllowList([("builtins", "getattr")], substitutes=own)
        for name in lists.__all__:
            every |= getattr(lists, name)
        guard = Guard(every)
        for member in of_python.enums():
            self.assertIs(guard.loads(pickle.dumps(member)), member)
        self.assertIn("members of shop.Color", every.to_text())


if __name__ == "__main__":
    unittest.main()

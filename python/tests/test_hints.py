"""What a refusal says is to be done, in Python and in the scan."""

import base64
import gzip
import io
import pickle
import re
import unittest
import zlib

import storklocker
from storklocker import AllowList, Guard, Limits, lists
from storklocker._name_hints import hint_of
from storklocker._names import renamed
from storklocker._purposes import said_of
from storklocker.explaining.judged import MOST
from storklocker.scanning.dangers import list_findings
from storklocker.scanning.severity import DANGER, UNKNOWN

NOTHING = storklocker.AllowList([])
SURROGATE = pickle.dumps("\ud800", 4)
HINTS = [
    # a pickle, the limits of the guard, a part of the hint
    (b"Nr\xff\xff\xff\xff.", None, "number 4,294,967,295 is above the limit numbers, 1,000,000"),
    (b"Nr\xff\xff\xff\xff.", None, "Limits(numbers=4294967295) raises it"),
    (b"Np7\n.", Limits(numbers=6), "numbers = 7 below [limits]"),
    (b"Nq\x07.", Limits(numbers=6), "memo number 7"),
    (b"NNq\x07.", Limits(memo=0), "more memo entries than the limit memo, 0: Limits(memo=1)"),
    (b"N\x94.", Limits(memo=0), "Limits(memo=1)"),
    (b"(" * 1_000_001, None, "stack entries than the limit stack, 1,000,000: Limits(large=True)"),
    (b"((", Limits(stack=1), "Limits(stack=2)"),
    (b"X" + (1 << 25).to_bytes(4, "little"), None, "limit counted, 16,777,216: Limits(large=True)"),
    (b"X" + (1 << 25).to_bytes(4, "little"), None, "large = true below [limits]"),
    (b"X\x05\0\0\0", Limits(counted=4), "a payload of 5 bytes is more than the limit counted, 4"),
    (b"B" + (1 << 25).to_bytes(4, "little"), None, "Limits(passed=33554432)"),
    (b"\x8e" + (1 << 25).to_bytes(8, "little"), None, "passed = 33554432 below [limits]"),
    (b"V" + b"a" * 65_537 + b"\n.", None, "no limit raises that"),
    (SURROGATE, None, "lone surrogate"),
    (pickle.dumps("\ud800", 0), None, "lone surrogate"),
    (pickle.dumps("a" * 300 + "\udfff", 2), None, "lone surrogate"),
    ("c\xe9t\xe9\nname\n.".encode(), None, "needs protocol 4"),
    ("cm\nn\xe9\n.".encode(), None, "needs protocol 4"),
    (b"", None, "there are no bytes"),
    (b"hello", None, "aren't a pickle"),
    (b"<xml>", None, "aren't a pickle"),
    (b"null", None, "aren't a pickle"),
    *((text, None, "look like text, not a pickle") for text in (
        b"This is a text", "Xylophon, schön gespielt".encode(), b"Best regards, Bob",
        b"Import this\nnow", b"Some text here\n", b"Large text\n", b"Create a file\n",
    )),
    (b'{"a": 1}', None, "JSON"),
    (b' [1, 2]', None, "JSON"),
    (gzip.compress(b"N."), None, "gzip"),
    (zlib.compress(b"N."), None, "zlib"),
    (base64.b64encode(pickle.dumps([1], 4)), None, "base64"),
    (b"PK\x03\x04", None, "storklocker scan"),
]
NONE = [
    b"N", b"\x80\x09.", b"NN.", b"\x80\x04X\x02\0\0\0\xff\xff.",
    *(pickle.dumps(it, 0)[:6] for it in (1234567, -1234567, 2**70, 1.25e-7, "a text", int)),
    b"S'a text", b'S"a text',
]


class Hints(unittest.TestCase):
    def test_hints(self):
        for data, limits, hint in HINTS:
            with self.subTest(data=data[:40]), self.assertRaises(storklocker.Refused) as raised:
                Guard(NOTHING, limits=limits).loads(data)
            error = raised.exception
            self.assertIn(hint, error.hint)
            self.assertEqual(str(error), f"{error.verdict} ({error.hint})")

    def test_imports_have_them(self):
        for data, limits, hint in HINTS:
            with self.subTest(data=data[:40]), self.assertRaises(storklocker.Refused) as raised:
                storklocker.imports(data, limits=limits)
            self.assertIn(hint, raised.exception.hint)

    def test_no_hint(self):
        for data in NONE:
            with self.subTest(data=data), self.assertRaises(storklocker.Refused) as raised:
                Guard(NOTHING).loads(data)
            self.assertEqual(raised.exception.hint, "")

    def test_what_is_hinted_helps(self):
        data = b"Nr\x41\x42\x0f\0."
        with self.assertRaises(storklocker.Refused) as raised:
            Guard(NOTHING).loads(data)
        said = raised.exception.hint
        self.assertIn("Limits(numbers=1000001)", said)
        self.assertIsNone(Guard(NOTHING, limits=Limits(numbers=1_000_001)).loads(data))

    def test_the_limits_of_a_list_are_meant(self):
        text = "version = 2\n[imports]\n[limits]\nstack = 1\n"
        with self.assertRaises(storklocker.Refused) as raised:
            Guard(storklocker.AllowList.from_text(text)).loads(b"NN0.")
        self.assertIn("the limit stack, 1: Limits(stack=2)", raised.exception.hint)

    def test_files(self):
        for data, hint in ((b"hello", "aren't a pickle"), (SURROGATE, "lone surrogate")):
            with self.assertRaises(storklocker.Refused) as raised:
                Guard(NOTHING).load(io.BytesIO(data))
            self.assertIn(hint, raised.exception.hint)

    def test_the_second_pickle_of_an_unpickler(self):
        data = b"(" * 1_000_001
        for front in (b"N.", b"N." * 3):
            for more, hint in ((SURROGATE, "lone surrogate"), (data, "limit stack"), (b"h", "")):
                unpickler = Guard(NOTHING).Unpickler(io.BytesIO(front + more))
                for _ in range(len(front) // 2):
                    unpickler.load()
                with self.assertRaises(storklocker.Refused) as raised:
                    unpickler.load()
                self.assertIn(hint, raised.exception.hint)

    def test_a_pickle_that_is_too_long_for_a_guard(self):
        data = pickle.dumps("a" * 1000, 4)
        for length in (100, len(data) - 1):
            with self.assertRaises(storklocker.Refused) as raised:
                Guard(NOTHING, max_bytes=length).load(io.BytesIO(data))
            self.assertIn(f"max_bytes, {length:,}", raised.exception.hint)

    def test_the_scan_has_them(self):
        from storklocker.scanning.judging import Question, reports_of

        for allow in (None, NOTHING):
            reports = list(reports_of("a.pickle", io.BytesIO(SURROGATE), Question(allow)))
            self.assertIn("(the text has a lone surrogate", reports[0].why)

    def test_lint_names_what_permits_nothing(self):
        allow = storklocker.AllowList({"os": ["*"], "numpy.*": ["array"], "collections": ["deque"]})
        found = [(it.kind, it.name) for it in list_findings(allow)]
        self.assertEqual(found, [("wildcard", "numpy.*.array"), ("wildcard", "os.*")])

    def test_what_is_learned_may_have_limits(self):
        from storklocker.scanning.learning import Learned

        text = "\n".join([*Learned().lines(), "[limits]", "stack = 9"])
        self.assertEqual(storklocker.AllowList.from_text(text).limits.stack, 9)


class Names(unittest.TestCase):
    """What is said of a name that a ready-made list has, whoever asks."""

    def setUp(self):
        self.lists = {word: AllowList.shipped(word.lstrip("@")) for word in lists.words()}

    def named(self, pair):
        """The name, what it is for, and the lists that have it."""
        today = ".".join(renamed(pair))
        return rf"{re.escape(today)} isn't on the list\. It (is|makes|tells|finds|stands) [^:]+, "

    def test_a_refusal_says_what_each_is_for(self):
        for word, allow in self.lists.items():
            for pair in allow:
                said = hint_of(pair)
                if renamed(pair) == ("builtins", "getattr"):
                    self.assertRegex(said, "Don't list it: a substitute finds .* is in @enum$")
                    continue
                self.assertRegex(said, self.named(pair) + "and is in @")
                is_told = word in said or re.search(r"and \d+ more; ", said)
                self.assertTrue(is_told, f"{word}: {said}")

    def test_no_list_has_it(self):
        """The control, and names of a stranger's, which aren't printed."""
        self.assertEqual(hint_of(("shop", "Order")),
                         "to permit it: storklocker list add LIST shop.Order")
        for pair in (("shop", "a" * 61), ("shop", "a b"), ("shop", "\x1b[1m")):
            self.assertEqual(hint_of(pair), "", pair)

    def test_lint_has_nothing_to_say_of_any(self):
        for word, allow in self.lists.items():
            self.assertEqual(list_findings(allow), [], word)
        for name, severity in (("shop.Order", UNKNOWN), ("os.system", DANGER)):
            found = list_findings(AllowList([tuple(name.split("."))]))
            self.assertEqual([it.severity for it in found], [severity])  # (the control)

    def test_explain_says_it_too(self):
        pairs = sorted({renamed(pair) for allow in self.lists.values() for pair in allow})
        count = 0
        for at in range(0, len(pairs), MOST):
            chunk = pairs[at : at + MOST]
            data = b"".join(f"c{module}\n{name}\n0".encode() for module, name in chunk) + b"N."
            said = str(storklocker.explain(data))
            for pair in chunk:
                row = f"    {'.'.join(pair)}  harmless: It {said_of(pair)}."
                count += row in said
        self.assertEqual(count, len(pairs) - 1)  # (getattr isn't harmless)


if __name__ == "__main__":
    unittest.main()

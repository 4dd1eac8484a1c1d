"""What `explain` says of pickles: beside what readers do, and what its statements do when they run.
"""

import io
import json
import os
import pickle
import random
import unittest
import zipfile

import explained
import explained_events
import storklocker
import test_scanning
from common import ROOT, needs, python
from storklocker.explaining.writing import ROOM

SCHEMA = ROOT / "docs" / "explain.schema.json"
SEEDED, HONEST = 2000, 1000
SHAPES = {
    "doubled": (b"K\x01" + b"2\x86" * 50_000 + b".", 20_000),
    "lists in lists": (b"]" * 50_000 + b"a" * 49_999 + b".", 30_000),
    "a long list": (b"](" + b"K\x01" * 100_000 + b"e.", 1000),
    "a long text": (b"X" + (1_000_000).to_bytes(4, "little") + b"a" * 1_000_000 + b".", 1000),
    "a text again and again": (b"X" + (5000).to_bytes(4, "little") + b"a" * 5000 + b"(" + b"2" * 100
                               + b"t0.", 1000),
    "calls": (b"cos\nsystem\n" + b"(K\x01tR0cos\nsystem\n" * 50_000 + b".", 50_000),
    "calls of calls": (b"cx\ny\n" + b")R" * 100_000 + b".", 100_000),
    "imports": (b"".join(b"cx\ny%d\n0" % it for it in range(20_000)) + b"N.", 100_000),
    "keys": (b"}(" + b"K\x01N" * 50_000 + b"u.", 1000),
}
"""Hostile pickles, and the most characters of what is said of each."""


class Point:
    """An object whose state BUILD sets."""

    def __init__(self):
        self.own = {"point": self, "listed": [1, 2.5, b"x"]}


class Hostile:
    """An object whose load runs a command."""

    def __reduce__(self):
        return os.system, ("touch M",)


def said(data, full=True):
    """The explanation of bytes."""
    return str(storklocker.explain(data, full=full))


def lines(data):
    """The statements, without what is said of them."""
    return [it.text for it in storklocker.explain(data, full=True).lines if it.at >= 0]


class Explaining(unittest.TestCase):
    setUp, put = test_scanning.Scanning.setUp, test_scanning.Scanning.put
    run_command = test_scanning.Scanning.run_command

    def test_forms(self):
        for data, expected in (
            (b"cos\nsystem\n(S'touch M'\ntR.", ["from os import system", "x0 = system('touch M')",
                                                "return x0"]),
            (b"(im\nC\n.", ["from m import C", "return instantiate(C)"]),
            (b"(K\x01K\x02im\nC\n.", ["from m import C", "return C(1, 2)"]),
            (b"(cm\nC\nK\x01o.", ["from m import C", "return C(1)"]),
            (b"\x82\x07.", ["x0 = extension(7)", "return x0"]),
            (b"Pabc\n.", ["return persistent_load('abc')"]),
            (b"K\x05Q.", ["return persistent_load(5)"]),
            (b"\x80\x05\x97\x98.", ["return readonly(next_buffer())"]),
            (b"cm\nC\n)\x81}b.", ["from m import C", "x0 = C.__new__(C)", "setstate(x0, {})",
                                  "return x0"]),
            (b"cm\nC\n)}\x8c\x01kK\x01s\x92.", ["from m import C",
                                               "return C.__new__(C, **{'k': 1})"]),
            (b"]q\0h\0a.", ["x0 = []", "x0.append(x0)", "return x0"]),
            (b"]2a.", ["x0 = []", "x0.append(x0)", "return x0"]),
            (b"cm\nf\n)R(K\x01K\x02e.", ["from m import f", "x0 = f()", "x0.extend([1, 2])",
                                         "return x0"]),
            (b"cm\nf\n)RK\x01K\x02s.", ["from m import f", "x0 = f()", "x0[1] = 2", "return x0"]),
            (b"cm\nf\n)R(K\x01\x90.", ["from m import f", "x0 = f()", "x0.add(1)", "return x0"]),
            (b"cm\nf\n)R\x8c\x01n\x93.", ["from m import f", "x0 = find_class(f(), 'n')",
                                          "return x0"]),
            (b"ca-b\nc\n.", ["return find_class('a-b', 'c')"]),
            (b"\x80\x04\x8c\x01m\x8c\x03A.B\x93.", ["from m import A", "return A.B"]),
            (b"ca\nf\ncb\nf\n\x86.", ["from a import f", "from b import f as f_1",
                                      "return (f, f_1)"]),
            (b"(lp0\n)\x8f\x86.", ["return ((), set())"]),
        ):
            with self.subTest(data=data):
                self.assertEqual(lines(data), expected)

    def test_order(self):
        """A call is written where it is used only if nothing happens in between."""
        data = b"ca\nf\n)Rcb\ng\n)R\x86."
        expected = ["from a import f", "x0 = f()", "from b import g", "return (x0, g())"]
        self.assertEqual(lines(data), expected)

    def test_refused(self):
        """It is explained to its fault, and what a more lenient reader does behind it."""
        found = said(b"KK0cos\nsystem\n(K\x01tR2.")
        self.assertIn("x0 = system(1)", found)
        self.assertIn("# here a reader stops: LeftOver", found)
        behind = said(b"I1_0\n0cos\nsystem\n(K\x01tR.")
        self.assertLess(behind.index("# here a reader stops"), behind.index("\nx0 = system(1)"))
        self.assertIn("what the most lenient reader does behind it", behind)
        self.assertIn("every reader stops here, at 17", said(b"cos\nsystem\n(K\x01tR0h\5."))

    def test_streams(self):
        """Pickles of one Pickler use its memo; others have their own."""
        made = io.BytesIO()
        pickler, value = pickle.Pickler(made, 2), [1]
        pickler.dump(value)
        pickler.dump((value, 2))
        self.assertEqual(lines(made.getvalue()), ["x0 = [1]", "yield x0", "yield (x0, 2)"])
        self.assertIn("# pickle 2, which uses the memo of the one before:", said(made.getvalue()))
        apart = pickle.dumps([1], 4) + pickle.dumps([[2], 2], 4)
        self.assertEqual(lines(apart), ["yield [1]", "yield [[2], 2]"])

    def test_names(self):
        found = storklocker.explain(b"cos\nsystem\n0cnowhere\nknown\n0ccollections\ndeque\n.")
        severities = [it.severity for it in found.part.names]
        self.assertEqual(severities, ["danger", "unknown", "harmless"])
        self.assertEqual(found.verdict, "dangerous")
        self.assertIn("os.system  dangerous: It runs a command.", str(found))

    def test_members_of_enums(self):
        """A scan says nothing of `getattr` if it gets these alone."""
        front = b"cbuiltins\ngetattr\n(cuuid\nSafeUUID\nV"
        found = storklocker.explain(front + b"unknown\ntR.")
        self.assertEqual((found.verdict, found.part.worst), ("unjudged", ()))
        found = storklocker.explain(front + b"__class__\ntR.")
        self.assertEqual((found.verdict, len(found.part.worst)), ("dangerous", 1))

    def test_bounds(self):
        """No shape makes the text long."""
        for name, (data, most) in SHAPES.items():
            with self.subTest(name):
                self.assertLess(len(said(data, False)), most)

    def test_behind_what_is_explained(self):
        """A dangerous import is found however far behind it is."""
        many = list(range(210_000))
        for protocol in (0, 2, 4):
            data = pickle.dumps([*many, Hostile(), *many[:99]], protocol)
            found = said(data, False)
            with self.subTest(protocol=protocol):
                self.assertIn("system is imported behind this, at ", found)
                self.assertIn("system('touch M')", found)
                self.assertIn("# made so far: [0, 1, 2,", found)
                self.assertIn("# 200,000 instructions are explained", found)

    def test_folded(self):
        found = said(pickle.dumps({"a": list(range(10_010)), "b": "c" * 500}), False)
        self.assertIn("... 10,000 more]", found)
        self.assertIn("... 340 more", found)
        self.assertLess(len(found), 2 * ROOM)

    def test_command(self):
        path = self.put("needle", pickle.dumps([*range(10_000)], 0)[:-1]
                        + b"cos\nsystem\n(S'id'\ntRa.")
        status, out = self.run_command("explain", path)
        self.assertEqual(status, 0)
        self.assertTrue(out.startswith("# dangerous: Don't load"), out)
        self.assertIn("\n#     x0 = system('id')  # at 68914", out)
        _, coloured = self.run_command("explain", path, "--color", "always")
        self.assertIn("\x1b[1;31mx0 = system('id')\x1b[0m", coloured)
        status, out = self.run_command("explain", path, "--format", "json")
        made = json.loads(out)
        self.assertEqual(made["verdict"], "dangerous")
        self.assertEqual(made["pickles"][0]["statements"][1]["text"], "x0 = system('id')")
        self.assertEqual(self.run_command("explain", self.put("cut", b"\x80\x04]"))[0], 2)

    def test_in_reports(self):
        """A page and SARIF say what a dangerous pickle does."""
        inner = b"cos\nsystem\n(S'touch M'\ntR."
        data = b"cpickle\nloads\n(B" + len(inner).to_bytes(4, "little") + inner + b"tR."
        path = self.put("hostile", data)
        for form, quote in (("html", "&#x27;"), ("sarif", "'")):
            out = self.run_command("scan", path, "--format", form)[1]
            self.assertIn(f"x0 = system({quote}touch M{quote})", out)
        out = self.run_command("scan", self.put("plain", pickle.dumps(1)), "--format", "html")[1]
        self.assertNotIn("What it does", out)

    def test_many_members(self):
        """Behind a hundred pickles only the dangerous ones are explained."""
        path = self.put("many.zip", b"")
        with zipfile.ZipFile(path, "w") as archive:
            for number in range(300):
                value = Hostile() if number == 250 else number
                archive.writestr(f"{number}.pkl", pickle.dumps(value))
        out = self.run_command("explain", path)[1]
        self.assertIn("250.pkl", out)
        self.assertIn("= system('touch M')", out)
        self.assertIn("# 199 more pickles", out)
        self.assertNotIn("more pickles", self.run_command("explain", path, "--full")[1])

    @needs("module:joblib", "module:numpy")
    def test_joblib(self):
        """Arrays between the instructions are left out, and arrays of objects are explained too."""
        import joblib
        import numpy

        path = self.put("arrays", b"")
        held = numpy.array([Hostile(), 1], dtype=object)
        joblib.dump([numpy.arange(1000), held], path)
        status, out = self.run_command("explain", path)
        self.assertEqual((status, out.count("joblib, without its arrays")), (0, 2))
        self.assertIn("= system('touch M')", out)

    @needs("module:jsonschema", str(SCHEMA))
    def test_schema(self):
        import jsonschema

        schema = json.loads(SCHEMA.read_text("utf-8"))
        for data in (pickle.dumps(Point()), b"cos\nsystem\n(K\x01tR.", b"\x80\x04]"):
            out = self.run_command("explain", self.put("x", data), "--format", "json")[1]
            jsonschema.validate(json.loads(out), schema)


class Run(unittest.TestCase):
    def test_honest_objects(self):
        """The statements make what the pickle makes, in a child."""
        code = f"import explained; print(*explained.honest({HONEST}))"
        self.assertEqual(python(code, "-W", "ignore").split(), [str(HONEST)])

    def test_random_pickles(self):
        """What happens in the reader and in the statements is the same, in the same order."""
        events = 0
        for number in range(SEEDED):
            data = explained_events.Maker(random.Random(number)).pickle()
            expected = explained_events.read(data)
            events += len(expected[0])
            with self.subTest(number=number, data=data):
                self.assertEqual(explained_events.explained_events(data), expected)
        self.assertGreater(events, 10 * SEEDED)


if __name__ == "__main__":
    unittest.main()

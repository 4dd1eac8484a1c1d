"""The place and the hint of each fault of a list file."""

import tempfile
import unittest
from pathlib import Path

from storklocker import AllowList, ListFault
from storklocker._places import place_of

FRONT = "version = 2\n[imports]\n"
FAULTS = [
    # a text, its fault, the line, a part of the hint
    (FRONT + 'numpy.core.multiarray = ["a"]', "Shape(Module)", 3, '"numpy.core.multiarray" = '),
    (FRONT + '[imports.numpy.core]\nmultiarray = ["a"]', "Shape(Module)", 4, '"numpy.core.multi'),
    (FRONT + 'a = ["b"]\n\nos = "path"', "Shape(Module)", 5, 'os = ["path"]'),
    (FRONT + 'a = ["b"]\nos = 7', "Shape(Module)", 4, 'os = ["name"]'),
    (FRONT + '"" = []', "Shape(Module)", 3, "needs a name"),
    (FRONT + 'os = [\n  "path",\n  ""]', "Shape(Name)", 3, "each name of os must be a text"),
    (FRONT + "os = [path]", "Syntax", 3, 'quote a text: "path"'),
    (FRONT + "a = []\n[limits]\nstack = many", "Syntax", 5, '"many"'),
    (FRONT + "a = []\na = []", "Syntax", 4, "in line 3"),
    (FRONT + "a = []\na.b = []", "Syntax", 4, "in line 3"),
    (FRONT + "a = []\n[limits]\n\n[limits]", "Syntax", 6, "limits is there already, in line 4"),
    ("version = 2\nversion = 2\n[imports]", "Syntax", 2, "version is there already, in line 1"),
    (FRONT + r'a = ["b\\c", "b\c"]', "Syntax", 3, "double each backslash"),
    (FRONT + "[limits]\nlarge = True", "Syntax", 4, "write true"),
    ("version: 2\n[imports]", "Syntax", 1, "write version = 2"),
    (FRONT + '"a = []', "Syntax", 3, 'quote it: "a"'),
    (FRONT + 'a = ["b"', "Syntax", 3, "isn't closed"),
    (FRONT + 'a = ["b" "c"]', "Syntax", 3, "comma"),
    (FRONT + 'a = ["b]', "Syntax", 3, "isn't closed"),
    (FRONT + "a/b = []", "Syntax", 3, 'quote it: "a/b"'),
    (FRONT + "# a comment\nos", "Syntax", 4, 'module = ["name"]'),
    (FRONT + 'a = ["b"] c', "Syntax", 3, "end the line"),
    ("version = 2\n[imports\n", "Syntax", 2, "[imports]"),
    (b"version = 2\n[imports]\n'\xff' = []", "Syntax", 3, "UTF-8"),
    ("[imports]\na = []", "Shape(Version)", 1, "begin with version = 2"),
    ("[imports]\na = []\nversion = 2", "Shape(Version)", 3, "before [imports]"),
    ("version = '2'\n[imports]", "Shape(Version)", 1, "write version = 2"),
    ("\nversion = 3\n[imports]", "Version", 2, "write version = 2"),
    ("version = 1\n[imports]\n[limits]\nstack = 1", "Shape(TopKey)", 3, "version = 2, in line 1"),
    ("version = 2\nos = ['path']", "Shape(TopKey)", 2, "put os below [imports]"),
    ("version = 2\nstack = 1\n[imports]", "Shape(TopKey)", 2, "below [limits]"),
    ("version = 2\n[import]\n", "Shape(TopKey)", 2, "import isn't one of version, imports"),
    ("version = 1\n[imports]\n[rules]\n", "Shape(TopKey)", 3, "rules need version = 2, in line 1"),
    ("version = 2\nbuild = 'made'\n[imports]", "Shape(TopKey)", 2, "put build below [rules]"),
    ("version = 2\nlevels = 9\n[imports]", "Shape(TopKey)", 2, "put levels below [limits]"),
    ("version = 2\n", "Shape(Imports)", 0, "add [imports]"),
    ("version = 2\nimports = []\n", "Shape(Imports)", 2, "write [imports]"),
    (FRONT + "[limits]\nheap = 1", "Shape(LimitKey)", 4, "heap isn't one of the limits"),
    (FRONT + "[limits]\nstack = '1'", "Shape(Limit)", 4, "from 0 to 1,000,000"),
    (FRONT + "[limits]\nstack = 1_000_001", "Shape(Limit)", 4, "large = true"),
    (FRONT + "[limits]\nlarge = false", "Shape(Limit)", 4, "write large = true"),
    (FRONT + "[limits]\nlarge = 3\nmost = 1", "Shape(Limit)", 4, "write large = true"),
    (FRONT + "[limits]\nlarge = 3\naaa = 1", "Shape(LimitKey)", 5, "aaa isn't one of the limits"),
    (FRONT + "[limits]\nlarge = 3\ncounted = -1", "Shape(Limit)", 5, "counted must be an integer"),
    ("version = 2\nlimits = 7\n[imports]", "Shape(Limits)", 2, "write [limits]"),
    (FRONT + "[limits]\nlevels = 1_023", "Shape(Limit)", 4, "to 1,022, or 4,294,967,295 for none"),
    (FRONT + "[limits]\nweight = 1_048_575", "Shape(Limit)", 4, "from 0 to 1,048,574, or 4,294"),
    (FRONT + "[limits]\nwork = -1", "Shape(Limit)", 4, "from 0 to 9,223,372,036,854,775,807"),
    (FRONT + "[limits]\nclash = 'none'", "Shape(Limit)", 4, "clash must be an integer"),
    ("version = 2\nrules = 7\n[imports]", "Shape(Rules)", 2, 'and below it build = "made"'),
    (FRONT + "[rules]\ncall = 1", "Shape(RuleKey)", 4, "call isn't a rule; build is"),
    (FRONT + "[rules]\nbuild = true", "Shape(Rule)", 4, 'write build = "made", or build = "any"'),
    (FRONT + "[rules]\nbuild = 'all'", "Shape(Rule)", 4, 'write build = "made"'),
    ("version = 1\n[imports]\n[substitutes]\n", "Shape(TopKey)", 3, "substitutes need version = 2"),
    ("version = 2\nsubstitutes = 7\n[imports]", "Shape(Substitutes)", 2, "write [substitutes]"),
    (FRONT + "[substitutes]\n'a.b' = ['c']", "Shape(Substitute)", 4, "its substitute"),
    (FRONT + "[substitutes]\na.b = 'c'", "Shape(Substitute)", 4, "its substitute"),
]
# TOML that isn't common in list files, before a fault.
ODD = """version = 0b10
[ "imports" ]  # a comment
a = []
"b.c" = ["d", 'e', # more
  \"\"\"f\"\"\",]
'g' = [ ]
heap.h = [[]]
[limits]
counted = 0x10
"""


class Places(unittest.TestCase):
    def test_each_fault_has_its_place(self):
        for text, fault, line, hint in FAULTS:
            with self.subTest(text=text), self.assertRaises(ListFault) as raised:
                AllowList.from_text(text)
            error = raised.exception
            self.assertEqual((error.fault, error.line), (fault, line), (text, error))
            self.assertIn(hint, error.hint)
            self.assertIn(f"list: {fault} (", str(error))

    def test_odd_files(self):
        with self.assertRaises(ListFault) as raised:
            AllowList.from_text(ODD)
        self.assertEqual((raised.exception.line, raised.exception.fault), (7, "Shape(Module)"))

    def test_a_file_is_named(self):
        with tempfile.TemporaryDirectory() as folder:
            file = Path(folder) / "list.toml"
            file.write_text(FRONT + "os = [path]")
            with self.assertRaises(ListFault) as raised:
                AllowList.from_file(file)
        self.assertEqual(raised.exception.file, str(file))
        self.assertIn(f'list: Syntax ({file}, line 3: quote a text: "path")', str(raised.exception))

    def test_what_is_no_text_has_no_place(self):
        for text in (b"\0", b"[" * 100_000, b"a.b" * 10_000, b'"\\', b"a = " + b"[" * 100_000):
            with self.assertRaises(ListFault):
                AllowList.from_text(text)

    def test_it_takes_linear_time(self):
        text = FRONT + "".join(f'm{k} = ["n"]\n' for k in range(50_000)) + "os = [path]"
        self.assertEqual(place_of(text.encode(), "Syntax").line, 50_003)

    def test_hints_are_printable(self):
        for name in ("\x1b[31m", "\u202e", "\x7f", "a" * 500):
            text = FRONT + f"'{name}' = 'os'"
            with self.assertRaises(ListFault) as raised:
                AllowList.from_text(text)
            self.assertTrue(str(raised.exception).isprintable())
            self.assertLess(len(str(raised.exception)), 200)


if __name__ == "__main__":
    unittest.main()

"""The extension module: numbers and fields as the header and the crate have them, what it shows,
and how it is made.
"""

import os
import re
import struct
import subprocess
import sys
import tempfile
import unittest
from pathlib import Path

from common import ARCHIVE, BY_PAIRS, COMPILER, GUARD, INCLUDE, PACKAGE, PYTHON, ROOT
from common import needs, python
from storklocker import AllowList, Limits, Reason, _storklocker
from storklocker._answers import LIST_FAULTS
from storklocker._limits import NO_COSTS, packed, without_costs

REASONS = (
    "Source Truncated UnknownOpcode BadArgument TooLarge ExtensionCode UnsupportedProtocol "
    "BrokenFrame MissingMark MissingItem MissingMemo OddItems WrongClass NotText UnknownImport "
    "ImportOffList LeftOver OutOfMemory NotAscii"
).split()
EXCESSES = "DeepKey HeavyKeys ManyKeys MuchMemory BuildsImport".split()
FAULTS = (
    "Syntax Shape(Version) Shape(TopKey) Shape(Imports) Shape(Module) Shape(Name) Version "
    "OutOfMemory Shape(Limits) Shape(LimitKey) Shape(Limit) Shape(Rules) Shape(RuleKey) Shape(Rule)"
    " Shape(Substitutes) Shape(Substitute)"
).split()
OLD_STRINGS = ("unknown", "ascii", "bytes")
HEADER = (PACKAGE / "storklocker.h").read_text()
MODULE = Path(_storklocker.__file__)


def constant_of(name):
    """The name as the header spells it: `UnknownOpcode` is UNKNOWN_OPCODE, `Shape(TopKey)`
    SHAPE_TOP_KEY.
    """
    return re.sub(r"(?<=[a-z])(?=[A-Z])", "_", name.replace("(", "_").rstrip(")")).upper()


def numbers_in(kind):
    """The numbers of one of the header's enums."""
    body = re.search(rf"enum storklocker_{kind} \{{(.*?)\}};", HEADER, re.S)[1]
    return {name: int(number) for name, number in re.findall(r"STORKLOCKER_(\w+) = (\d+)", body)}


def fields_of_crate(file, name):
    """Names and types of the fields of a structure of the crates."""
    text = (ROOT / "crates" / file).read_text()
    body = re.search(rf"#\[repr\(C\)\]\n(?:#.*\n)*pub struct {name}\S* \{{(.*?)\n\}}", text, re.S)[
        1
    ]
    return re.findall(r"pub (\w+): (.*),", body)


def fields_of_library(name):
    """Names and types of the fields of a structure that the C code shares with the crate."""
    code = (PYTHON / "storklocker.c").read_text()
    body = re.search(rf"struct {name} \{{(.*?)\n\}};", code, re.S)[1]
    lines = re.findall(r"uint(\d+)_t ([\w, ]+);", body)
    return [(field, f"u{bits}") for bits, fields in lines for field in fields.split(", ")]


def fields_of_header(name):
    body = re.search(rf"struct {name} \{{(.*?)\n\}};", HEADER, re.S)[1]
    return [(field, f"u{bits}") for bits, field in re.findall(r"uint(\d+)_t (\w+);", body)]

INTERPRETERS = """
try:
    import _interpreters as interpreters
except ImportError:
    import _xxsubinterpreters as interpreters
for kind in ("isolated", "legacy"):
    if hasattr(interpreters, "exec"):
        fault = interpreters.exec(interpreters.create(kind), "import storklocker")
    else:
        fault = None
        try:
            made = interpreters.create(isolated=kind == "isolated")
            interpreters.run_string(made, "import storklocker")
        except interpreters.RunFailedError as error:
            fault = error
    print(kind, "loaded" if fault is None else "refused")
"""


class Numbers(unittest.TestCase):
    def test_they_are_frozen(self):
        reasons = dict(zip(REASONS + EXCESSES, range(1, 99)))
        self.assertEqual({it.name: it.value for it in Reason}, reasons)
        self.assertEqual(LIST_FAULTS, dict(zip(range(1, 99), FAULTS)))

    def test_header_has_them(self):
        reasons = {constant_of(name): k for k, name in enumerate(REASONS + EXCESSES, 1)}
        self.assertEqual(numbers_in("reason"), reasons)
        faults = {f"LIST_{constant_of(name)}": k for k, name in enumerate(FAULTS, 1)}
        self.assertEqual(numbers_in("fault"), faults)
        old_strings = {f"OLD_{name.upper()}": k for k, name in enumerate(OLD_STRINGS)}
        self.assertEqual(numbers_in("old_strings"), old_strings)
        self.assertEqual(numbers_in("status"), {"YES": 0, "NO": 1, "NO_LIST": 2, "USAGE": 3})

    def test_library_prints_them(self):
        code = (PYTHON / "storklocker.c").read_text()
        for kind, names in (("reason", REASONS + EXCESSES), ("fault", FAULTS)):
            body = re.search(rf"storklocker_{kind}_text.*?= {{(.*?)}};", code, re.S)[1]
            self.assertEqual(re.findall(r'"(.*?)"', body), ["", *names])

    def test_crate_has_them(self):
        code = (GUARD / "src" / "codes.rt").read_text()
        reasons = re.findall(r"Reason::(\w+)(?:\(_\))? => (\d+),", code)
        self.assertEqual([(name, int(k)) for name, k in reasons], list(zip(REASONS, range(1, 99))))
        excesses = [
            (name, int(k)) for name, k in re.findall(r"Excess::(\w+) => (\d+),", code)
        ]
        self.assertEqual(excesses, [*zip(EXCESSES, range(20, 99)), ("OutOfMemory", 18)])
        faults = re.findall(r"AllowError::(\w+)(?:\(Where::(\w+)\))? => (\d+),", code)
        named = [(f"{name}({part})" if part else name, int(k)) for name, part, k in faults]
        self.assertEqual(named, list(zip(FAULTS, range(1, 99))))
        settings = (GUARD / "src" / "settings.rt").read_text()
        old_strings = re.findall(r"(\d+) => Some\(OldStrings::(\w+)\),", settings)
        self.assertEqual(
            [(name.lower(), int(k)) for k, name in old_strings], list(zip(OLD_STRINGS, range(9)))
        )

    def test_formats_have_them(self):
        text = (ROOT / "docs" / "FORMATS.md").read_text()
        rows = re.findall(r"^\| (\d+) \| ([A-Z]\w+)(?:\(\w+\))? \|", text, re.M)
        wanted = list(zip(REASONS + EXCESSES, range(1, 99)))
        self.assertEqual([(name, int(k)) for k, name in rows], wanted)

    def test_header_and_crate_have_the_same_fields(self):
        verdict = fields_of_crate("pkguard/src/verdict.rt", "Verdict")
        bill = fields_of_crate("pkguard/src/costs.rt", "Bill")
        self.assertEqual(verdict + bill, fields_of_header("storklocker_verdict"))
        settings = fields_of_crate("pkguard/src/settings.rt", "Settings")
        *costs, extent = fields_of_crate("pkguard/src/costs.rt", "Costs")
        self.assertEqual(
            [*settings, *costs, ("unused", "u32")], fields_of_header("storklocker_settings")
        )
        library = fields_of_library("costs"), fields_of_library("bill")
        self.assertEqual(library, ([*costs, extent], bill))

    def test_settings_are_packed_as_the_header_has_them(self):
        fields = fields_of_header("storklocker_settings")
        letters = {"u64": "Q", "u32": "I"}
        shape = "@" + "".join(letters[bits] for _, bits in fields)
        limits = Limits(
            counted=1, stack=2, memo=3, passed=4, numbers=5, large=True, weight=6, work=7
        )
        for number, build in enumerate(("made", "any")):
            given = struct.unpack(shape, packed(limits, "bytes", True, build))
            self.assertEqual(given[-2:], (number, 0))
        wanted = {**limits._asdict(), "size": struct.calcsize(shape), "sorted": 1}
        wanted.update(old_strings=numbers_in("old_strings")["OLD_BYTES"])
        wanted.update(row_memo=numbers_in("row_memo")["MEMO_KEPT"])
        wanted.update(clash=(1 << 64) - 1, memory=(1 << 64) - 1)
        wanted.update(builds=1, unused=0)
        self.assertEqual(dict(zip((name for name, _ in fields), given)), wanted)
        free = struct.unpack(shape, packed(Limits(**NO_COSTS), "unknown", False, "any"))
        none = [(1 << 32) - 1] * 2 + [(1 << 64) - 1] * 3 + [1, 0]
        self.assertEqual(list(free[-7:]), none)
        held = packed(limits._replace(**NO_COSTS), "ascii", True, "any")
        self.assertEqual(without_costs(packed(limits, "ascii", True, "made")), held)


class Module(unittest.TestCase):
    @needs("nm")
    def test_nothing_else_is_visible(self):
        said = subprocess.run(
            ["nm", "-D", "--defined-only", str(MODULE)], check=True, capture_output=True, text=True
        )
        self.assertEqual(
            [line.split()[-1] for line in said.stdout.splitlines()], ["PyInit__storklocker"]
        )

    @needs("readelf")
    def test_any_c_library_suffices(self):
        said = subprocess.run(
            ["readelf", "-W", "-d", "--dyn-syms", str(MODULE)],
            check=True, capture_output=True, text=True,
        ).stdout
        self.assertNotIn("(NEEDED)", said)
        wanted = set(re.findall(r" UND (\S+)", said))
        others = {name for name in wanted if not re.match("_?Py", name)}
        given = "malloc realloc free memchr memcpy memmove memset".split()
        self.assertLessEqual(others, set(given))
        self.assertNotIn("PyUnstable", said)

    @unittest.skipIf(sys.version_info < (3, 12), "all interpreters share one GIL")
    @unittest.skipIf(sys.implementation.name == "pypy", "no interpreters in PyPy")
    def test_interpreters_with_a_gil_of_their_own(self):
        # (whoever has the GIL has the arena)
        self.assertEqual(python(INTERPRETERS).split(), ["isolated", "refused", "legacy", "loaded"])

    def test_it_is_as_short_as_it_was_promised(self):
        promised = {"_storklocker.c": 380, "pairs.c": 90, "loads.c": 280, "audit.c": 100}
        promised.update({"walk.c": 225, "uses.c": 400, "cutting.c": 215, "arena.c": 70})
        promised.update({"usual.c": 132, "telling.c": 125, "judging.c": 400, "holding.c": 40})
        promised.update({"naming.c": 60, "memo.c": 60, "values.c": 80, "finding.c": 240})
        for name, most in promised.items():
            lines = (PYTHON / name).read_text().splitlines()
            self.assertLessEqual(len(lines), most)
            self.assertLessEqual(max(map(len, lines)), 100)

    def test_what_it_does_not_take(self):
        settings = packed(Limits(), "unknown", False, "made")
        for given in (b"", settings + b"\0", bytearray(settings), 5):
            for call in (
                lambda: _storklocker.verdict(b"N.", BY_PAIRS, given),
                lambda: _storklocker.imports(b"N.", BY_PAIRS, given, 5),
                lambda: _storklocker.pairs_of(AllowList, (), given),
            ):
                with self.subTest(given=given), self.assertRaises(TypeError):
                    call()
        for call, count in (
            (_storklocker.verdict, 3),
            (_storklocker.row_verdict, 3),
            (_storklocker.imports, 4),
        ):
            given = (b"N.", BY_PAIRS, None, 64, 64)
            call(*given[:count])
            for other in {0, 1, 2, 3, 4, 5} - {count}:
                with self.subTest(call=call, count=other), self.assertRaises(TypeError):
                    call(*given[:other])
        for pairs in ([], ("a",), ((b"a",),), (("a", "b"),), ((b"a", b"b"), None)):
            with self.subTest(pairs=pairs), self.assertRaises((TypeError, SystemError)):
                _storklocker.pairs_of(AllowList, pairs, settings)

    @needs(COMPILER, ARCHIVE, INCLUDE)
    def test_the_same_bytes_in_another_folder(self):
        with tempfile.TemporaryDirectory() as folder:
            made = []
            for name in ("one", "another/of more words"):
                place = Path(folder, name)
                place.mkdir(parents=True)
                for file in PYTHON.glob("*"):
                    if file.is_file():
                        (place / file.name).write_bytes(file.read_bytes())
                        (place / file.name).chmod(0o755)
                (place / "storklocker").mkdir()
                (place / "storklocker" / "storklocker.h").write_text(HEADER)
                words = [str(place / "make"), "--archive", ARCHIVE, "--out", str(place / "out")]
                subprocess.run(words, check=True)
                made.append((place / "out" / "_storklocker.abi3.so").read_bytes())
        self.assertEqual(made[0], made[1])

    @needs(COMPILER, INCLUDE)
    def test_what_make_says_of_bad_words(self):
        for words, said in (
            (["--archive"], "needs a value"),
            (["--archive", "no/such.a"], "no/such.a"),
            (["--fast"], "--fast"),
            (["--cc", "no-such-cc"], "no-such-cc"),
            (["--include", "/no/such"], "Python.h"),
        ):
            ran = subprocess.run([str(PYTHON / "make"), *words], capture_output=True, text=True)
            self.assertEqual(ran.returncode, 2, words)
            self.assertIn(said, ran.stderr)

    def test_import_costs_little(self):
        code = (
            "import pickle, sys; had = set(sys.modules); import storklocker;"
            "print(*set(sys.modules) - had)"
        )
        imported = python(code, "-S").split()  # a module of `site` may import some of these
        for module in (
            "__future__",
            "asyncio",
            "bisect",
            "contextvars",
            "ctypes",
            "hashlib",
            "importlib.util",
            "pickletools",
            "json",
            "storklocker._imports",
            "storklocker._reasons",
            "threading",
            "typing",
            "typing_extensions",
        ):
            self.assertNotIn(module, imported)

    def test_the_first_reason_is_one_like_any_other(self):
        said = python(
            "import storklocker, sys; guard = storklocker.Guard(storklocker.AllowList([]))\n"
            "guard.loads(b'N.'); print('storklocker._reasons' in sys.modules)\n"
            "for data in (b'N', b'N.', b'q', b'q'):\n"
            "    print(repr(guard.check(data).reason))"
        )
        reasons = [repr(it) for it in (Reason.Truncated, None, Reason.Truncated, Reason.Truncated)]
        self.assertEqual(said.splitlines(), ["False", *reasons])
        # the module finds each by its place
        self.assertEqual(list(map(int, Reason)), list(range(1, len(Reason) + 1)))

    @needs("mypy")
    def test_types(self):
        version = subprocess.run(["mypy", "--version"], capture_output=True, text=True).stdout
        if not version.startswith("mypy 1.0"):
            self.skipTest(f"{version.strip()} asks for other types than mypy 1.0")
        ran = subprocess.run(
            ["mypy", "--strict", "--cache-dir", os.devnull, str(PACKAGE)],
            capture_output=True,
            text=True,
            cwd=PYTHON,
        )
        self.assertEqual(ran.returncode, 0, ran.stdout)

    def test_help_is_a_page(self):
        page = python(
            "import pydoc, storklocker;"
            "print(pydoc.render_doc(storklocker, renderer=pydoc.plaintext))"
        )
        for word in (
            "class Guard",
            "class AllowList",
            "class Limits",
            "class Refusal",
            "context(value",
            "    check(",
            "loads(",
        ):
            self.assertIn(word, page)


if __name__ == "__main__":
    sys.exit(unittest.main())

"""`scan --allow` and `check` answer what a guard with the list answers, substitutes included."""

import contextlib
import datetime
import importlib
import io
import pickle
import subprocess
import sys
import tempfile
import textwrap
import types
import unittest
from collections import Counter, OrderedDict
from pathlib import Path

from common import IMPORTED_FROM, needs
from storklocker import AllowList, Guard, Misused, lists, substitutes
from storklocker.scanning.budget import STEPS, Budget
from storklocker.scanning.command import main
from storklocker.scanning.foreseeing import Fate, Look, foreseen
from storklocker.scanning.source import in_memory
from storklocker.scanning.words import Word
from test_readings import reports
from test_scanning import npy, zipped

P = b"\x80\x04"


def name(module, word):
    return f"c{module}\n{word}\n".encode()


def text(word):
    return b"\x8c" + bytes([len(word)]) + word.encode()


COPY, KIND = name("copy", "copy"), name("collections", "OrderedDict")
OWN = name("argparse", "Namespace")
BYTES, ARRAY = name("builtins", "bytes"), name("builtins", "bytearray")
ENCODE = name("_codecs", "encode")
STATE = b"}" + text("a") + b"K\x01sb."
PLAIN = AllowList([
    *(("builtins", word) for word in ("bytes", "bytearray", "object", "getattr")),
    *(("_codecs", "encode"), ("codecs", "encode"), ("copyreg", "_reconstructor"), ("copy", "copy")),
    *(("collections", word) for word in ("OrderedDict", "Counter")), ("enum", "EnumMeta"),
    ("argparse", "Namespace"),
    *(("operator", word) for word in ("attrgetter", "methodcaller")), ("types", "ModuleType"),
], substitutes={
    ("builtins", "getattr"): substitutes.getattr({"datetime.date": ["min"]}),
    ("operator", "attrgetter"): substitutes.attrgetter("a"),
    ("operator", "methodcaller"): substitutes.methodcaller("b"),
})
REFUSED, ACCEPTED, UNDECIDED = Word.REFUSED, Word.ACCEPTED, Word.UNDECIDED
PICKLES = {
    "bytes of a length": (BYTES + b"K\x05\x85R.", REFUSED),
    "bytearray of a length": (ARRAY + b"K\x05\x85R.", REFUSED),
    "bytes of a list": (BYTES + b"]\x85R.", REFUSED),
    "a slow codec": (ENCODE + text("a") + text("idna") + b"\x86R.", REFUSED),
    "a codec as a value": (ENCODE + b".", REFUSED),
    "BUILD on a class that a call answers": (COPY + KIND + b"\x85R" + STATE, UNDECIDED),
    "BUILD on a class that is made": (
        name("enum", "EnumMeta") + text("A") + b")}\x87R" + STATE, UNDECIDED
    ),
    "BUILD on a module": (name("types", "ModuleType") + b")\x81" + STATE, UNDECIDED),
    "bytes of what a call answers": (BYTES + COPY + b"K\x05\x85R\x85R.", UNDECIDED),
    "bytes of a list with such": (BYTES + COPY + b"K\x05\x85R\x85\x85R.", UNDECIDED),
    "an attribute": (
        name("operator", "attrgetter") + text("__globals__") + b"\x85R.", REFUSED
    ),
    "a method": (name("operator", "methodcaller") + text("c") + b"\x85R.", REFUSED),
    "getattr of a class": (
        name("builtins", "getattr") + KIND + text("__init__") + b"\x86R.", UNDECIDED
    ),
    "getattr of a text": (
        name("builtins", "getattr") + text("a") + text("format") + b"\x86R.", UNDECIDED
    ),
    "an old object of a dict": (
        name("copyreg", "_reconstructor") + KIND + name("builtins", "object") + b"N\x87R.",
        UNDECIDED,
    ),
}
STATED = OrderedDict(a=1)
STATED.about = OrderedDict(b=OrderedDict())
HONEST = {
    "a dict with an attribute": pickle.dumps(STATED, 4),
    "bytes": BYTES + b"C\x01a\x85R.",
    "no bytes": BYTES + b")R.",
    "nested": ARRAY + BYTES + b"C\x05aaaaa\x85R\x85R.",
    "encoded": ENCODE + text("a") + text("latin1") + b"\x86R.",
    "old bytes": pickle.dumps(b"\xff", 2),
    "objects": pickle.dumps([Counter("aab"), OrderedDict(a=b"1")], 4),
    "a state": OWN + b")\x81" + STATE,
    "a class as a value": BYTES + b"\x85.",
    "an attribute": name("operator", "attrgetter") + text("a") + b"\x85R.",
    "a codec by another name": name("codecs", "encode") + text("a") + text("latin1") + b"\x86R.",
    "plain data": pickle.dumps({"a": [1, 2.5, (None,)]}, 4),
}


def word(data, allow):
    """Of the file as a pickle: some begin with a time, so are read as files of caches too."""
    return reports(data, allow)[0].status


def is_loaded(data, allow):
    try:
        Guard(allow).loads(data)
    except Misused:
        return False
    except Exception:
        return None  # it is loaded so far
    return True


class Substitutes(unittest.TestCase):
    def test_what_a_guard_stops(self):
        for what, (data, wanted) in PICKLES.items():
            for several in (P + data, pickle.dumps(1, 4) + P + data):
                with self.subTest(what=what):
                    self.assertEqual(word(several, PLAIN), wanted)
            self.assertIsNot(is_loaded(P + data, PLAIN), True, what)
            with self.subTest(what=what):
                self.assertIn(wanted, [it.status for it in reports(zipped(("a", P + data)), PLAIN)])

    def test_what_a_guard_loads(self):
        for what, data in HONEST.items():
            with self.subTest(what=what):
                data = data if data[:1] == b"\x80" else P + data
                self.assertEqual(word(data, PLAIN), ACCEPTED)
                self.assertTrue(is_loaded(data, PLAIN))

    def test_long_rows(self):
        dates = pickle.dumps(datetime.date(2020, 1, 1), 4)
        allow = lists.DATETIME
        self.assertEqual(word(dates * 12_000, allow), ACCEPTED)
        encoded = P + HONEST["encoded"]
        self.assertEqual(word(encoded * 12_000, allow), ACCEPTED)
        code = text("latin1") + b"\x86R."
        differing = b"".join(P + ENCODE + text(f"{it}") + code for it in range(12_000))
        self.assertEqual(word(differing, allow), ACCEPTED)
        budget = Budget(0)
        budget.spend(STEPS - 100_000)
        said = foreseen(in_memory(io.BytesIO(differing)), 12_000, Look(allow), budget)
        self.assertEqual(said.fate, Fate.UNDECIDED)
        slow = P + PICKLES["a slow codec"][0]
        self.assertEqual(word(dates * 5_000 + slow + dates, allow), REFUSED)

    def test_a_refusal_behind_what_is_undecided(self):
        data = P + PICKLES["bytes of what a call answers"][0][:-1] + b"0"
        self.assertEqual(word(data + PICKLES["bytes of a length"][0], PLAIN), REFUSED)

    def test_without_substitutes_nothing_is_foreseen(self):
        """The control: names alone are permitted, and pickle runs the calls."""
        allow = AllowList([("copy", "copy"), ("collections", "OrderedDict")])
        data = P + COPY + KIND + b"\x85R."
        self.assertEqual((word(data, allow), is_loaded(data, allow)), (ACCEPTED, True))


class Nothing(unittest.TestCase):
    """Nothing that a pickle names is imported or called."""

    def test_no_import(self):
        with tempfile.TemporaryDirectory() as held:
            folder = Path(held)
            (folder / "leaves_a_mark.py").write_text(textwrap.dedent("""\
                open(__file__ + '.imported', 'w').close()
                def run(*given):
                    open(__file__ + '.run', 'w').close()
            """))
            pair = name("leaves_a_mark", "run")
            data = P + b"(" + pair + b")R" + BYTES + pair + b")R\x85Rt."
            (folder / "a.pickle").write_bytes(data)
            (folder / "list.toml").write_text(
                'version = 2\n[imports]\nleaves_a_mark = ["run"]\nbuiltins = ["bytes"]\n'
            )
            words = ["storklocker.scanning.command", "scan", "a.pickle", "--allow", "list.toml"]
            ran = self.ran(folder, "-m", *words)
            self.assertEqual((ran.returncode, ran.stdout.split()[0]), (1, "undecided"), ran)
            self.assertEqual(len(list(folder.glob("*.imported"))), 0)
            loads = "import pickle; pickle.loads(open('a.pickle', 'rb').read())"
            self.ran(folder, "-c", loads)
            self.assertEqual(len(list(folder.glob("*.imported"))), 1, "the control")
            self.assertEqual(len(list(folder.glob("*.run"))), 1, "the control")

    def ran(self, folder, *words):
        path = {"PYTHONPATH": f"{IMPORTED_FROM}:{folder}", "PATH": "/usr/bin:/bin"}
        return subprocess.run([sys.executable, *words], cwd=str(folder), env=path, text=True,
                              stdout=subprocess.PIPE, stderr=subprocess.PIPE, timeout=120)


class Command(unittest.TestCase):
    def setUp(self):
        held = tempfile.TemporaryDirectory()
        self.addCleanup(held.cleanup)
        self.folder = Path(held.name)

    def ran(self, command, data, listed, *words):
        (self.folder / "a.pickle").write_bytes(data)
        (self.folder / "list.toml").write_text(f"version = 2\n[imports]\n{listed}\n")
        out = io.StringIO()
        words = (*words, "--allow", str(self.folder / "list.toml"))
        with contextlib.redirect_stdout(out):
            return main([command, str(self.folder / "a.pickle"), *words]), out.getvalue()

    def test_statuses(self):
        listed = 'builtins = ["bytes"]\ncopy = ["copy"]'
        for what, plain, guarded in (
            ("bytes of a length", 1, 1), ("bytes of what a call answers", 1, 0),
        ):
            for command in ("scan", "check"):
                data = P + PICKLES[what][0]
                self.assertEqual(self.ran(command, data, listed)[0], plain, (what, command))
                ran = self.ran(command, data, listed, "--guarded")
                self.assertEqual(ran[0], guarded, (what, command))
        status, said = self.ran("check", P + PICKLES["bytes of a length"][0], listed)
        self.assertEqual(said, "no: bytes is called with unexpected arguments\n")
        status, said = self.ran("check", P + HONEST["bytes"], listed)
        self.assertEqual((status, said[:4]), (0, "yes:"))
        data = P + PICKLES["bytes of what a call answers"][0]
        self.assertEqual(self.ran("scan", data, listed, "--fail-on", "never")[0], 0)
        self.assertTrue(self.ran("check", data, listed)[1].startswith("undecided: "))

    def test_costs_and_build(self):
        """Of a list too that says otherwise than the defaults of a guard."""
        keys = b"})" + b"2\x86" * 30 + b"Ns."
        change = P + OWN + STATE
        for data in (keys, change):
            for said in ("", "[limits]\nweight = 4294967295\nwork = 9223372036854775807\n",
                         '[rules]\nbuild = "any"\n', "[limits]\nstack = 1000\n"):
                listed = f'argparse = ["Namespace"]\n{said}'
                allow = AllowList.from_text(f"version = 2\n[imports]\n{listed}")
                wanted = 0 if Guard(allow).check(data) else 1
                for command in ("check", "scan"):
                    status, told = self.ran(command, data, listed)
                    self.assertEqual(status, wanted, (data[:20], said, told))
                self.assertEqual(word(data, allow), (ACCEPTED, REFUSED)[wanted])

    def test_a_list_that_no_guard_takes(self):
        data, listed = P + name("os", "system") + b".", 'os = ["system"]\n'
        with self.assertRaises(ValueError):
            Guard(AllowList([("os", "system")]))
        meant = f'{listed}[substitutes]\n"os.system" = "dangerous"\n'
        for command in ("scan", "check"):
            with contextlib.redirect_stderr(io.StringIO()) as errors:
                self.assertEqual(self.ran(command, data, listed)[0], 2)
            self.assertIn("os.system on the list permits everything", errors.getvalue())
            self.assertEqual(self.ran(command, data, meant)[0], 0)


def dtype(code):
    return name("numpy", "dtype") + text(code) + b"\x89\x88\x87R"


def ends_the_process():
    """A pickle of listed names whose type has an object at an offset outside of its item."""
    state = b"(K\x03" + text("|") + b"N" + text("a") + b"\x85}" + text("a") + dtype("O8")
    state += b"J\0\0\0\0\x86sK\x08K\x01K\x01tb"
    made = name("numpy.core.multiarray", "_reconstruct") + name("numpy", "ndarray")
    made += b"K\x00\x85C\x01b\x87R(K\x01K\x03\x85" + dtype("V8") + state
    return P + made + b"\x89C\x18" + b"A" * 24 + b"tb."


@needs("module:numpy")
class NumPy(unittest.TestCase):
    def test_a_pickle_that_ends_the_process(self):
        data = ends_the_process()
        inner = "import pickle, sys; it = pickle.loads(sys.stdin.buffer.read()); del it"
        ran = subprocess.run([sys.executable, "-c", inner], input=data, timeout=120,
                             stdout=subprocess.DEVNULL, stderr=subprocess.DEVNULL)
        self.assertNotEqual(ran.returncode, 0, "the control")
        self.assertIs(is_loaded(data, lists.NUMPY), False)
        for whole in (data, zipped(("a", data)), npy(data)):
            found = reports(whole, lists.NUMPY)
            self.assertIn(REFUSED, [it.status for it in found])
            self.assertNotIn(ACCEPTED, [it.status for it in found])

    def test_what_numpy_writes(self):
        numpy = importlib.import_module("numpy")
        allow = lists.NUMPY | lists.DATETIME
        for value in (
            numpy.arange(5.0), numpy.array(["a", "bc"]), numpy.float64(2.5), numpy.dtype("M8[ns]"),
            numpy.zeros(3, [("a", "i4"), ("b", "f8")]), numpy.array(["x", None, 1], object),
            numpy.ma.array([1, 2], mask=[0, 1]), [numpy.ones((2, 3), order="F")] * 2,
        ):
            for protocol in (2, 4):
                data = pickle.dumps(value, protocol)
                self.assertEqual(word(data, allow), ACCEPTED, (value, protocol))
                self.assertTrue(is_loaded(data, allow))

    def test_arrays_of_objects(self):
        """What decides about an array isn't in its items, unless they are rows."""
        numpy = importlib.import_module("numpy")
        allow, date = lists.NUMPY | lists.DATETIME, datetime.date(2020, 1, 1)
        fields = [("a", "i4"), ("b", "O")]
        for value in (
            numpy.array([date], object), numpy.array([[date, None], ["a", date]], object),
            numpy.array([(1, date)], fields), numpy.ma.array([date], mask=[1], dtype=object),
        ):
            data = pickle.dumps(value, 4)
            self.assertEqual((word(data, allow), is_loaded(data, allow)), (ACCEPTED, True), value)
            short = data.replace(b"K\x01\x85", b"K\x03\x85", 1).replace(
                b"K\x02K\x02\x86", b"K\x03K\x02\x86", 1)
            self.assertNotEqual(short, data)
            self.assertEqual((word(short, allow), is_loaded(short, allow)), (REFUSED, False))
        rows = P + pickle.dumps(numpy.array([(1, date)], fields), 4)[11:]
        row = rows[rows.rindex(b"]") : rows.rindex(b"a")]
        data = rows.replace(row, b"]\x94" + row[4:-2])  # a date in place of a tuple
        self.assertEqual((word(data, allow), is_loaded(data, allow)), (UNDECIDED, False))

    def test_another_name_of_what_has_a_substitute(self):
        """A guard knows it by the object; here only a load would tell."""
        module = types.ModuleType("names_of_arrays")
        module.scalar = importlib.import_module("numpy.core.multiarray").scalar
        sys.modules[module.__name__] = module
        self.addCleanup(sys.modules.pop, module.__name__)
        allow = lists.NUMPY | AllowList([(module.__name__, "scalar")])
        data = P + name(module.__name__, "scalar") + dtype("O8") + b"C\x08" + bytes(8) + b"\x86R."
        self.assertIs(is_loaded(data, allow), False)
        self.assertEqual(word(data, allow), UNDECIDED)

    @needs("module:pandas", "module:sklearn", "module:joblib")
    def test_what_libraries_write(self):
        pandas, joblib = map(importlib.import_module, ("pandas", "joblib"))
        ensemble = importlib.import_module("sklearn.ensemble")
        frame = pandas.DataFrame({"a": pandas.date_range("2020", periods=2), "b": ["x", "y"]})
        self.assertEqual(word(pickle.dumps(frame, 4), lists.PANDAS), UNDECIDED)
        model = ensemble.RandomForestClassifier(2).fit([[0], [1]], [0, 1])
        out = io.BytesIO()
        joblib.dump(model, out)
        for data in (pickle.dumps(model, 4), out.getvalue()):
            self.assertEqual(word(data, lists.SCIKIT_LEARN), UNDECIDED)

    def test_without_numpy(self):
        """Where it isn't installed, nothing is known of it."""
        inner = textwrap.dedent("""\
            import io, sys
            sys.modules["numpy"] = None
            from storklocker import lists
            from storklocker.scanning.judging import Question, reports_of
            data = io.BytesIO(sys.stdin.buffer.read())
            print(*(it.status for it in reports_of("a", data, Question(lists.NUMPY))))
        """)
        numpy = importlib.import_module("numpy")
        for data in (ends_the_process(), pickle.dumps(numpy.arange(5.0), 4)):
            ran = subprocess.run([sys.executable, "-c", inner], input=data, timeout=120,
                                 stdout=subprocess.PIPE, env={"PYTHONPATH": str(IMPORTED_FROM)})
            self.assertEqual(ran.stdout.strip(), b"undecided")


if __name__ == "__main__":
    unittest.main()

"""The table of dangerous names: each danger does harm, the table is what its sources give, and what
is harmless isn't in it.
"""

import contextlib
import io
import json
import os
import subprocess
import sys
import tempfile
import unittest
from pathlib import Path

import harm
import storklocker
from common import PYTHON, python
from storklocker import lists
from storklocker.scanning import dangers
from storklocker.scanning.command import main
from storklocker.scanning.dangers import MOST, import_findings

sys.path.append(str(PYTHON / "catalogue"))
import walking  # noqa: E402

WALK = f"""
import sys
sys.path.append({str(PYTHON / "catalogue")!r})
import walking
print(*walking.section({{!r}}, walking.judged()), sep="\\n")
"""


def is_otherwise(danger, word):
    """Whether a library has another version, which takes other arguments than the example's."""
    is_other = not walking.is_catalogued(danger[0].partition(".")[0])
    return is_other and word.startswith(("TypeError: ", "AttributeError: "))


ASKED = """
    uuid._get_command_stdout _osx_support._read_output distutils.spawn.spawn imaplib.IMAP4_stream
    io.open codecs.open pip.main bdb.Bdb.run pdb.run timeit.timeit code.interact runpy.run_path
    pty.spawn cProfile.run trace.Trace.run webbrowser.open ctypes.CDLL _ctypes.dlopen
    asyncio.create_subprocess_exec asyncio.subprocess.create_subprocess_shell
    logging.config.dictConfig multiprocessing.Process multiprocessing.util.spawnv_passfds
    numpy.f2py.compile numpy.testing._private.utils.runstring torch.hub.load
    torch.jit.unsupported_tensor_ops.execWrapper pandas.eval pandas.core.computation.eval.eval
    joblib.load joblib.numpy_pickle.load sklearn.externals.joblib.load builtins.eval os.system
    posix.system nt.system subprocess.Popen operator.methodcaller torch.storage._load_from_bytes
    pickle.loads _pickle.loads importlib.import_module random._os.system collections.abc.sys.modules
    __builtin__.eval __builtin__.getattr commands.getoutput cPickle.loads _io.open shutil.rmtree
    subprocess.Popen.__init__ zipfile.ZipFile.__init__ io.FileIO.__init__
    codecs.__builtins__ builtins.object.__subclasses__ asyncio.unix_events.subprocess.Popen
    six.exec_ six.moves.builtins.exec six.moves.cPickle.loads future.moves.subprocess.Popen
    joblib.numpy_pickle.NDArrayWrapper.read joblib.numpy_pickle_compat.ZNDArrayWrapper.read
""".split()
HARMLESS = """
    __builtin__.set builtins.set copyreg._reconstructor copy_reg._reconstructor _codecs.encode
    collections.OrderedDict datetime.datetime decimal.Decimal pathlib.PosixPath uuid.UUID
    subprocess.CompletedProcess logging.getLogger numpy.dtype numpy.core.multiarray._reconstruct
    sklearn.svm._classes.SVC torch._utils._rebuild_tensor_v2 exceptions.ValueError builtins.KeyError
    types.SimpleNamespace argparse.Namespace itertools.count joblib.numpy_pickle.NumpyArrayWrapper
    sklearn.externals.joblib.numpy_pickle.NumpyArrayWrapper
""".split()


def kinds(dotted):
    """The kinds of findings on a name."""
    module, _, name = dotted.rpartition(".")
    for front in ("random", "collections", "asyncio.unix_events", "subprocess", "zipfile", "io"):
        if dotted.startswith(f"{front}."):
            module, name = front, dotted[len(front) + 1 :]
    return [it.kind for it in import_findings([(module, name)])]


class Kept(unittest.TestCase):
    def test_a_judgement_is_kept_unless_its_names_are_long(self):
        kept = dangers._judged_before
        for name, is_kept in (("system", True), ("x" * 300, False)):
            kept.cache_clear()
            found = [dangers.judged("os", name) for _ in range(3)]
            self.assertEqual(found, [dangers._judged("os", name)] * 3)
            self.assertEqual(kept.cache_info().currsize, int(is_kept))
        self.assertEqual(dangers.judged("os", "system").severity, "danger")
        self.assertIsNotNone(kept.cache_info().maxsize)


class Table(unittest.TestCase):
    @classmethod
    def setUpClass(cls):
        cls.dangers = [
            (name, row.example)
            for name, row in walking.judged().rows.items()
            if row.severity == "danger"
        ]

    def test_the_walk_finds_what_stands_there(self):
        for library in ("python", "numpy", "joblib"):
            version = walking.version_of(library)
            if not version:
                continue
            # (in a process of its own, whose memory no other test inherits)
            lines = python(WALK.format(library)).splitlines()
            made = (PYTHON / "catalogue" / "walked" / f"{library}.txt").read_text(encoding="utf-8")
            if lines[0] == made.splitlines()[0]:
                self.assertEqual(made.splitlines(), lines)
            elif library == "python":  # others have much the same callables
                found = set(" ".join(lines).split())
                self.assertGreater(len(found.intersection(made.split())), len(found) // 2)

    def test_each_danger_does_harm(self):
        lines = "".join(json.dumps(row) + "\n" for row in self.dangers)
        with tempfile.TemporaryDirectory() as folder, tempfile.TemporaryFile("w+") as output:
            # (no pipe, which what has done harm would hold open)
            ran = subprocess.run(
                [sys.executable, "-W", "ignore", harm.__file__],
                input=lines.encode(),
                stdout=output,
                stderr=subprocess.STDOUT,
                env={**os.environ, "TMPDIR": folder, "PYTHONDONTWRITEBYTECODE": "1"},
            )
            output.seek(0)
            said = output.read()
        self.assertEqual(ran.returncode, 0, said)
        words = [json.loads(line) for line in said.splitlines() if line.startswith('"')]
        self.assertEqual(len(words), len(self.dangers), said)
        told = [it for it in zip(self.dangers, words) if it[1] not in ("harmed", "absent")]
        self.assertEqual([it for it in told if not is_otherwise(*it)], [])
        self.assertGreater(words.count("harmed"), 100)

    def test_a_pickle_of_each_danger_is_a_finding(self):
        for name, example in self.dangers:
            pairs = [tuple(name.rsplit(".", 1))]
            self.assertEqual([it.kind for it in import_findings(pairs)], ["dangerous-import"])


class Findings(unittest.TestCase):
    def test_dangers(self):
        for name in ASKED:
            self.assertEqual(kinds(name), ["dangerous-import"], name)

    def test_harmless(self):
        for name in HARMLESS:
            self.assertEqual(kinds(name), [], name)

    def test_what_nobody_has_judged(self):
        for name in ("shop.orders.Order", "collections.OrderedDict.fromkeys", "os2.system"):
            self.assertEqual(kinds(name), ["unknown-import"], name)
        self.assertEqual([it.kind for it in import_findings([(None, None)])], ["hidden-import"])

    def test_warnings(self):
        for name in ("functools.partial", "socket.create_connection", "os.kill", "sys.exit",
                     "pandas.read_csv", "dataclasses._process_class", "torch.jit.load"):
            self.assertEqual(kinds(name), ["risky-import"], name)

    def test_names_on_the_list(self):
        pairs = [("functools", "partial"), ("os", "system"), ("shop", "Order")]
        listed = storklocker.AllowList(pairs)
        self.assertEqual([it.kind for it in import_findings(pairs, listed)], ["dangerous-import"])

    def test_many_and_long_names(self):
        found = import_findings(("a", f"b{number}") for number in range(5000))
        self.assertEqual(len(found), MOST + 1)
        self.assertIn(f"{5000 - MOST:,} more", found[-1].why)
        for name in ("b." * 1_000_000, "." * 1_000_000, "os." * 1_000_000, "\udc80" * 1_000_000):
            self.assertTrue(import_findings([("a", name), (name, "b")]))


class Lint(unittest.TestCase):
    def linted(self, text, *words):
        with tempfile.TemporaryDirectory() as folder:
            path = Path(folder, "list.toml")
            path.write_text(text, encoding="utf-8")
            out = io.StringIO()
            with contextlib.redirect_stdout(out):
                status = main(["lint", str(path), *words])
        return status, out.getvalue()

    def test_shipped_lists_have_no_dangers(self):
        for name in lists.__all__:
            text = Path(lists.__file__).with_name(f"{name.lower()}.toml").read_text("utf-8")
            header = text[: text.index("version")]
            for finding in import_findings(storklocker.AllowList.from_text(text)):
                told = finding.name.replace("__builtin__", "builtins")
                self.assertTrue(finding.severity != "danger" or told in header, finding)
            status, out = self.linted(text)
            self.assertEqual(status, 0, (name, header, out))

    def test_what_only_a_guard_loads_safely(self):
        for name, is_said in (("numpy = ['dtype']", True), ("shop = ['Order']", False)):
            out = self.linted(f"version = 1\n[imports]\n{name}\n")[1]
            self.assertEqual("may crash other readers" in out, is_said, name)

    def test_a_harmful_list(self):
        status, out = self.linted(
            'version = 1\n[imports]\nbuiltins = ["getattr", "set"]\nshop = ["Order"]\n'
        )
        self.assertEqual(status, 1)
        self.assertIn("dangerous: builtins.getattr", out)
        self.assertIn("1 dangerous, 0 warnings, 1 not judged", out)

    def test_a_list_of_unjudged_names_has_a_status_of_its_own(self):
        text = 'version = 1\n[imports]\nbuiltins = ["set"]\nshop = ["Order"]\n'
        self.assertEqual(self.linted(text)[0], 3)
        self.assertEqual(self.linted(text, "--fail-on", "danger")[0], 0)
        self.assertEqual(self.linted(text.replace("set", "exec"))[0], 1)
        self.assertEqual(self.linted(text.partition("shop")[0])[0], 0)


if __name__ == "__main__":
    unittest.main()

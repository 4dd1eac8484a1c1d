#!/usr/bin/env python3
"""Tests what runs the tests: `./test`, `.ci/run` and the scripts that they call, in copies of this
repository with parts that are fakes. The last line counts.
"""
import contextlib
import io
import os
import pathlib
import re
import shutil
import signal
import subprocess
import sys
import tempfile
import time
import unittest
from concurrent.futures.process import BrokenProcessPool
from typing import Dict, List, Tuple

import edit
import progress

ROOT = pathlib.Path(__file__).resolve().parent.parent
PATH = os.environ["PATH"]
COUNTS = r"(\d+) passed, (\d+) failed(?:, (\d+) skipped)?"


def tracked() -> List[str]:
    words = ["git", "ls-files", "-z", "--cached", "--others", "--exclude-standard"]
    listed = subprocess.run(words, cwd=ROOT, check=True, stdout=subprocess.PIPE).stdout
    return [name for name in listed.decode().split("\0") if name]


class Copies(unittest.TestCase):
    """Each test has a copy of what git tracks here, and a folder of fakes on the path."""

    def setUp(self) -> None:
        folder = tempfile.TemporaryDirectory(prefix="gate-")
        self.addCleanup(folder.cleanup)
        self.copy = pathlib.Path(folder.name, "copy")
        self.fakes = pathlib.Path(folder.name, "fakes")
        self.fakes.mkdir()
        for name in tracked():
            if (ROOT / name).is_file():
                (self.copy / name).parent.mkdir(parents=True, exist_ok=True)
                shutil.copy2(ROOT / name, self.copy / name)

    def script(self, path: pathlib.Path, *lines: str) -> pathlib.Path:
        path.parent.mkdir(parents=True, exist_ok=True)
        path.write_text("\n".join(["#!/bin/sh", *lines, ""]))
        path.chmod(0o755)
        return path

    def ran(self, *words: str, **environment: str) -> Tuple[int, List[str]]:
        """The status and the lines of a command in the copy, with a clean environment."""
        clean: Dict[str, str] = {"PATH": f"{self.fakes}:{PATH}", "HOME": str(self.fakes)}
        ran = subprocess.run(
            words,
            cwd=self.copy,
            env={**clean, "PYTHONDONTWRITEBYTECODE": "1", **environment},
            stdin=subprocess.DEVNULL,
            stdout=subprocess.PIPE,
            stderr=subprocess.STDOUT,
            encoding="utf-8",
        )
        return ran.returncode, ran.stdout.splitlines()

    def counts(self, lines: List[str]) -> List[int]:
        """The counts of the last line."""
        found = re.fullmatch(COUNTS, lines[-1])
        assert found, lines
        return [int(it or 0) for it in found.groups()]

    def git(self, *words: str) -> None:
        who = ["-c", "user.name=a", "-c", "user.email=a@localhost"]
        subprocess.run(["git", *who, *words], cwd=self.copy, check=True, stdout=subprocess.DEVNULL)

    def replace(self, name: str, old: str, new: str) -> None:
        path = self.copy / name
        text = path.read_text()
        assert old in text, (name, old)
        path.write_text(text.replace(old, new))


class Scripts(Copies):
    def test_the_first_use_of_the_launcher_is_no_output(self) -> None:
        answers = ["case $1 in", "check) echo 'yes: 28 bytes, 1 imports' ;;", "esac"]
        first = [f'[ -e "{self.fakes}/used" ] || echo "unpacked" >&2', f'touch "{self.fakes}/used"']
        self.script(self.copy / "pktool", *first, *answers)
        cases = "ordered-dict\tordered-dict\t-\t0\tyes: 28 bytes, 1 imports\n"
        (self.copy / "examples" / "cases.tsv").write_text(cases)
        status, lines = self.ran("examples/run-all")
        self.assertEqual((status, lines[0]), (0, "unpacked"))
        self.assertEqual(self.counts(lines), [1, 0, 0])

    def test_recipes_take_the_package_that_is_installed(self) -> None:
        package = self.fakes / "site" / "storklocker"
        package.mkdir(parents=True)
        (package / "__init__.py").write_text("print('the installed one')\nraise SystemExit(3)\n")
        for name in ("worker", "spark"):
            with self.subTest(name=name):
                os.chdir(self.copy / "examples" / "recipes")
                self.addCleanup(os.chdir, "/")
                words = ["sh", "-c", f"cd examples/recipes && ./{name}"]
                _, lines = self.ran(*words, PYTHONPATH=str(package.parent), PYTHON=sys.executable)
                self.assertIn("the installed one", lines)

    def test_without_the_package_its_parts_are_skipped(self) -> None:
        program = str(self.script(self.fakes / "pktool", "echo none"))
        alone = {"PKTOOL": program, "PYTHONPATH": "", "PYTHON": f"{sys.executable} -I"}
        alone["PYTHON"] = str(self.script(self.fakes / "alone", f'exec {sys.executable} -I "$@"'))
        _, lines = self.ran("examples/recipes/run-all", **alone)
        skipped = {line.split(": ")[1] for line in lines if line.startswith("skipped: ")}
        self.assertLessEqual({"spark", "worker"}, skipped)
        _, lines = self.ran("tests/documents.py", **alone)
        self.assertEqual(self.counts(lines)[2], 1)
        self.assertFalse([line for line in lines if "ModuleNotFoundError" in line])
        status, lines = self.ran("python/services", **alone)
        self.assertEqual((status, len(lines), self.counts(lines)), (1, 2, [0, 1, 0]))

    def test_an_interpreter_by_its_name(self) -> None:
        program = str(self.script(self.fakes / "pktool", "echo none"))
        text = "```console\n$ python3 -V\n$ echo\n\n```"
        code = f"import worked; print(worked.examples({text!r}, False))"
        path = str(self.copy / "tests")
        for python in ("python3", sys.executable):
            words = [sys.executable, "-c", code]
            _, lines = self.ran(*words, PKTOOL=program, PYTHON=python, PYTHONPATH=path)
            self.assertRegex(lines[-1], r"^\(1, \[\(2, 'python3 -V prints\\nPython 3", python)

    def test_nothing_is_installed_unasked(self) -> None:
        told = self.fakes / "told"
        for name in ("apt-get", "sudo"):
            self.script(self.fakes / name, f'echo "$0 $*" >>"{told}"', "exit 1")
        self.script(self.fakes / "dpkg-query", "exit 1")
        (self.copy / "python/service_tests/run.py").write_text("print('1 passed, 0 failed')\n")
        self.ran("python/services")
        self.ran("./test", "services")
        self.assertFalse(told.exists())

    def test_versions_in_development(self) -> None:
        program = self.script(self.fakes / "pktool", 'echo "pktool $(cat VERSION)"')
        version = (self.copy / "VERSION").read_text().strip()
        for other, is_right in (("0.1.9.dev1", False), ("0.2.0.dev1", False), ("9.0.0.dev2", True)):
            self.replace("VERSION", version, other)
            version = other
            _, lines = self.ran("tests/versions", PKTOOL=str(program))
            told = [line for line in lines if line.startswith("failed: CHANGELOG.md")]
            self.assertEqual(not told, is_right, other)

    def test_a_long_test_says_how_far_it_is(self) -> None:
        said = io.StringIO()
        self.addCleanup(setattr, progress, "PAUSE", progress.PAUSE)
        progress.PAUSE = 0.05
        with contextlib.redirect_stderr(said):
            results = progress.results_of(time.sleep, [0.3, 0.0], "naps", 1)
            self.assertEqual(list(results), [None, None])
        self.assertRegex(said.getvalue(), r"\A0 of 2 naps in \d+ s\n")

    def test_a_long_test_ends_when_a_process_of_it_is_killed(self) -> None:
        results = progress.results_of(signal.raise_signal, [signal.SIGKILL], "kills", 1)
        with self.assertRaises(BrokenProcessPool):
            list(results)


class Bodies(unittest.TestCase):
    def test_whose_body_a_line_is_in(self) -> None:
        """A clause is in none, nor what shares its proof with others."""
        text = (
            "fn first() {\n    n\n}\nfn second()\n    ensures same { n }\n{\n    n\n}\n"
            "#[cycle(turning)]\nfn third() {\n    third()"
        ).split("\n")
        found = [edit.function_around(text, number) for number in range(len(text))]
        self.assertEqual(found, ["", *2 * ["first"], *3 * [""], *3 * ["second"], "", ""])


class Shipped(Copies):
    """A version has one set of files."""

    def setUp(self) -> None:
        super().setUp()
        self.git("init", "-q")
        self.sums = self.copy / "release" / "SHA256SUMS"

    def ship(self, version: str, digest: str) -> List[str]:
        """Ships a file as a version, and returns what is said of it."""
        self.replace("VERSION", (self.copy / "VERSION").read_text(), f"{version}\n")
        self.sums.write_text(f"{64 * digest}  storklocker-{version}-x86_64.whl\n")
        self.git("add", "-A")
        self.git("commit", "-qm", "shipped", "--allow-empty")
        return [line for line in self.ran("tests/shipped")[1] if "VERSION" in line]

    def test_a_file_changes_with_the_version(self) -> None:
        self.assertEqual(self.ship("9.0.0.dev1", "1"), [])
        self.assertEqual(self.ship("9.0.0.dev1", "1"), [])
        self.assertEqual(len(self.ship("9.0.0.dev1", "2")), 1)
        self.assertEqual(self.ship("9.0.0.dev2", "2"), [])

    def test_no_history_is_said(self) -> None:
        shutil.rmtree(self.copy / ".git")
        lines = self.ran("tests/shipped")[1]
        self.assertTrue([line for line in lines if line.startswith("skipped: what was shipped")])


class Groups(Copies):
    """`./test` with fakes of the scripts that a group runs."""

    def group(self, *lines: str, words: Tuple[str, ...] = ()) -> Tuple[int, List[str]]:
        self.script(self.copy / "tests" / "edits.py", *lines)
        return self.ran("./test", *words, "edits", "gone")

    def setUp(self) -> None:
        super().setUp()
        self.replace("test", "\nedits ", "\ngone        fake\nedits ")
        gone = "run_gone() { needs no-such-program; }"
        self.replace("test", "\nrun_edits()", f"\n{gone}\nrun_edits()")

    def test_counts_and_reasons(self) -> None:
        told = ["echo noise", "echo 'skipped: a: no b'", "echo 3 passed, 0 failed, 2 skipped"]
        status, lines = self.group(*told)
        self.assertEqual((status, self.counts(lines)), (0, [3, 0, 3]))
        # (which group ends first is left open)
        text = "\n".join(lines)
        self.assertRegex(text, r"(?m)^edits +3 passed, 2 skipped +\d+ s\n +skipped: a: no b$")
        last = r"(?m)^gone +0 passed, 1 skipped +\d+ s +there is no no-such-program$"
        self.assertRegex(text, last)

    def test_failures_are_counted_and_shown(self) -> None:
        for last, end, counts in (
            ("5 passed, 2 failed", 1, [5, 2, 1]),
            ("5 passed, 0 failed", 1, [5, 1, 1]),
            ("no count", 0, [0, 1, 1]),
        ):
            status, lines = self.group("echo what went wrong", f"echo {last}", f"exit {end}")
            self.assertEqual((status, self.counts(lines)), (1, counts), last)
            self.assertIn("failed: edits: what went wrong", lines)

    def test_a_python_without_its_whole_library(self) -> None:
        concurrent = self.fakes / "parts" / "concurrent.py"
        concurrent.parent.mkdir()
        concurrent.write_text("raise ModuleNotFoundError")
        start = f'PYTHONPATH={concurrent.parent} exec {sys.executable} "$@"'
        self.script(self.fakes / "python3", start)
        status, lines = self.group("echo 1 passed, 0 failed")
        self.assertEqual((status, self.counts(lines)), (0, [0, 0, 2]), lines)
        said = "edits .* python3 lacks a part of its standard library\n"
        self.assertRegex("\n".join(lines), said)

    def test_why_there_is_no_package(self) -> None:
        (self.copy / "python/storklocker/__init__.py").write_text("raise SystemExit('its reason')")
        status, lines = self.ran("./test", "corpus", "gone")
        self.assertEqual((status, self.counts(lines)), (1, [0, 1, 1]), lines)
        self.assertRegex(lines[-2], "^failed: corpus: python3 finds no package .*: its reason$")

    def test_why_something_is_not_installed(self) -> None:
        for name, line in (
            ("id", "echo 0"),
            ("apt-get", "echo 'E: its reason' >&2; exit 1"),
            ("apt-cache", "echo Package: gcc"),
            ("dpkg-query", "exit 1"),
        ):
            self.script(self.fakes / name, line)
        status, lines = self.group("echo 1 passed, 0 failed", words=("--install",))
        self.assertEqual((status, self.counts(lines)), (0, [1, 0, 1]), lines)
        self.assertEqual(lines.count("E: its reason"), 1)
        self.assertIn("gcc can't be installed", lines)

    def test_one_group_is_shown_whole(self) -> None:
        self.script(self.copy / "tests" / "edits.py", "echo noise", "echo 1 passed, 0 failed")
        status, lines = self.ran("./test", "edits")
        self.assertEqual((status, self.counts(lines)), (0, [1, 0, 0]))
        self.assertIn("noise", lines)

    def test_built_takes_nothing_that_is_shipped(self) -> None:
        self.script(self.copy / "python" / "make", "echo made nothing", "exit 1")
        status, lines = self.ran("./test", "--built", "rows", "library")
        self.assertEqual((status, self.counts(lines)), (1, [0, 2, 0]))

    def test_a_script_that_hangs_fails(self) -> None:
        self.script(self.copy / "python" / "make", "exit 1")
        self.replace("test", " -k 9 2400", " -k 9 1")
        status, lines = self.group("sleep 60", words=("--built",))
        self.assertEqual((status, self.counts(lines)), (1, [0, 1, 1]), lines)
        said = "failed: edits: tests/edits.py ended with status 124: it was stopped "
        self.assertTrue([line for line in lines if line.startswith(said)], lines)

    def test_a_clean_environment(self) -> None:
        self.script(self.copy / "tests" / "edits.py", "env", "echo 1 passed, 0 failed")
        _, lines = self.ran("./test", "edits", PYTHONUNBUFFERED="1", PYTHONPATH="/x", LD_PRELOAD="")
        self.assertFalse([it for it in lines if re.match("PYTHON(UNBUFFERED|PATH)=|LD_", it)])

    def test_the_package_under_two_pythons(self) -> None:
        find = "import os, sys; print(os.path.realpath(sys.executable))"
        found = []
        for python in ("python3", "/usr/bin/python3"):
            if shutil.which(python):
                words = [python, "-c", find]
                found.append(subprocess.run(words, check=True, stdout=subprocess.PIPE).stdout)
        tests = [find, "print(sorted(it for it in os.environ if it[:7] == 'PYTHONU'))"]
        tests.append("print('1 passed, 0 failed, 0 skipped')")
        (self.copy / "python" / "tests" / "run.py").write_text("\n".join(tests))
        # (what isn't shipped takes no environment of its own)
        (self.copy / "python" / "storklocker" / "_other.py").touch()
        status, lines = self.ran("./test", "package", PYTHONUNBUFFERED="1")
        self.assertEqual((status, self.counts(lines)[0]), (0, len(set(found))), lines)
        for file in found:
            self.assertIn(file.decode().strip(), lines)
        self.assertNotIn("['PYTHONUNBUFFERED']", lines)

    def test_words(self) -> None:
        status, lines = self.ran("./test", "--list")
        self.assertEqual((status, lines[0].split()[0]), (0, "gone"))
        for words in (["no-such-group"], ["--no-such-option"], ["-k"]):
            self.assertEqual(self.ran("./test", *words)[0], 2)


class Gate(Copies):
    """`.ci/run` with a fake toolchain."""

    def edits(self, folder: str) -> List[pathlib.Path]:
        return sorted(self.copy.glob(f"crates/*/{folder}/*.edit"))

    def gate(self, *lines: str) -> Tuple[int, List[str]]:
        """Runs the gate. The fake `rt ci` proves all if it sees no edits; the fake prover refuses
        each edit, but for what these lines say of the function `$last`.
        """
        self.script(
            self.fakes / "rt",
            f"[ $1 = doc ] && echo {self.fakes}/kit/guide && exit",
            "ls crates/*/must-fail 2>/dev/null && exit 1",
            "echo '7 passed, 0 failed'",
        )
        self.script(
            self.fakes / "kit/bin/rattle",
            "for last; do :; done",
            *lines,
            "echo 'note: src/lib.rt:1:1: it is not proved'",
            "echo 'fn a::b: not proved'",
            "exit 1",
        )
        self.script(self.copy / "test", 'echo "words: $*"', "echo 5 passed, 0 failed, 1 skipped")
        always = self.edits("must-fail")
        status, printed = self.ran(".ci/run", CC="true")
        self.assertIn("words: --install --built", printed)
        self.assertEqual(self.edits("must-fail"), always)
        return status, printed

    def test_edits_and_counts(self) -> None:
        status, lines = self.gate()
        tried = len(self.edits("must-fail")) + -(-len(self.edits("edits")) // 10)
        self.assertEqual((status, self.counts(lines)), (0, [12 + tried, 0, 1]))

    def test_edits_that_are_not_refused(self) -> None:
        first, second = self.edits("must-fail")[:2]
        for edit, name in ((first, "x::not_refused"), (second, "x::not_read")):
            text = edit.read_text()
            edit.write_text(re.sub("^function: .*", f"function: {name}", text, flags=re.M))
        status, lines = self.gate(
            'case "$last" in',
            "x::not_refused | */kept) echo 'fn a::b: proved'; exit ;;",
            "x::not_read) echo 'src/lib.rt:1:1: error[unknown-field]: no field'; exit 1 ;;",
            "esac",
        )
        self.assertEqual((status, self.counts(lines)[1]), (1, 2))
        for edit in (first, second):
            self.assertIn(f"failed: {edit.relative_to(self.copy)}: NOT REFUSED", lines)

    def test_edits_of_bodies_are_tried_together(self) -> None:
        checks = self.fakes / "checks"
        status, lines = self.gate(
            f"echo >>{checks}",
            "for word; do",
            '[ "$before" != --only ] || echo "fn a::$word: not proved"',
            "before=$word",
            "done",
        )
        tried = len(self.edits("must-fail")) + -(-len(self.edits("edits")) // 10)
        self.assertEqual((status, self.counts(lines)), (0, [12 + tried, 0, 1]))
        self.assertLess(len(checks.read_text().splitlines()), tried // 2)

    def test_an_edit_that_cannot_be_applied(self) -> None:
        edit = next(iter(sorted(self.copy.glob("crates/*/edits/*.edit"))))
        edit.write_text(edit.read_text().replace("old: ", "old: no such text "))
        status, lines = self.ran("tests/edits.py")
        self.assertEqual((status, self.counts(lines)[1]), (1, 1))


def main() -> int:
    result = unittest.main(module=__name__, exit=False, verbosity=1).result
    failed = len(result.failures) + len(result.errors)
    print(f"{result.testsRun - failed} passed, {failed} failed", flush=True)
    return 1 if failed else 0


if __name__ == "__main__":
    sys.exit(main())

#!/usr/bin/env python3
"""Tests what others put the package into, with the shipped files or those that are named: an
environment with its program, manual page and completions, in which the tutorial needs nothing else,
the source distribution, the hooks of pre-commit, the workflow and the Dockerfile of examples/ci.
The last line counts.

They run as far as they can be run here: each command of the workflow and of the Dockerfile, not
the actions and the image that these name.
"""

import argparse
import importlib
import os
import platform
import re
import shlex
import shutil
import subprocess
import sys
import tempfile
import unittest
import venv
from pathlib import Path
from typing import Any, Dict, Optional

from worked import DONE, ROOT, blocks_of, commands_of, session_of

HOSTILE = b"cos\nsystem\n(Vtouch /nowhere/at-all\ntR."
HARMLESS = b"\x80\x04K\x01."


def wheels() -> Path:
    """The folder of the wheels."""
    return Path(os.environ.get("WHEELS", str(ROOT / "release"))).resolve()


def ran(*words: Any, **named: Any) -> "subprocess.CompletedProcess[str]":
    """What a command says, with nothing of this environment but the path."""
    environment = {"PATH": os.environ["PATH"], "HOME": "/", **named.pop("env", {})}
    return subprocess.run(
        [str(word) for word in words], capture_output=True, text=True, env=environment, **named
    )


def parsed(file: str) -> Any:
    """A YAML file, as far as PyYAML is here."""
    try:
        yaml = importlib.import_module("yaml")
    except ImportError:
        raise unittest.SkipTest("without PyYAML") from None
    return yaml.safe_load((ROOT / file).read_text())


class Packages(unittest.TestCase):
    folder: Path
    environment: Path

    @classmethod
    def setUpClass(cls) -> None:
        made = tempfile.TemporaryDirectory()
        cls.addClassCleanup(made.cleanup)
        cls.folder = Path(made.name)
        cls.environment = cls.folder / "venv"
        try:
            venv.create(cls.environment, with_pip=True)
        except (ImportError, SystemExit, subprocess.CalledProcessError):
            raise unittest.SkipTest("without pip in a new environment") from None
        words = ("install", "-q", "--no-index", "--find-links", wheels(), "storklocker")
        installed = ran(cls.environment / "bin" / "pip", *words)
        assert installed.returncode == 0, installed.stderr

    def files(self) -> Path:
        """A folder with a harmless and a hostile file."""
        folder = Path(tempfile.mkdtemp(dir=self.folder))
        (folder / "good.pickle").write_bytes(HARMLESS)
        (folder / "bad.pkl").write_bytes(HOSTILE)
        return folder

    def test_it_runs_as_a_module(self) -> None:
        python = self.environment / "bin" / "python"
        version = (ROOT / "VERSION").read_text().strip()
        said = ran(python, "-m", "storklocker", "--version", cwd="/")
        self.assertEqual(said.stdout, f"storklocker {version}\n", said.stderr)

    def test_the_program_is_installed(self) -> None:
        command = self.environment / "bin" / "storklocker"
        listed = ROOT / "examples" / "pickles" / "ordered-dict.pickle"
        for words in (("dis", listed), ("json", listed), ("dis", "/none"), ("optimize",)):
            theirs = ran(os.environ.get("PKTOOL", ROOT / "pktool"), *words, cwd="/")
            mine = ran(command, *words, cwd="/")
            self.assertEqual((mine.returncode, mine.stdout), (theirs.returncode, theirs.stdout))
            usage = theirs.stderr.replace("Usage: pktool", "Usage: storklocker")
            self.assertEqual(mine.stderr, usage)

    def test_the_tutorial_needs_nothing_else(self) -> None:
        folder, tools = (Path(tempfile.mkdtemp(dir=self.folder)) for _ in range(2))
        for name in ("sh", "mkdir", "tee", "grep"):
            (tools / name).symlink_to(str(shutil.which(name)))
        named: Dict[str, Any] = {"cwd": folder, "env": {"PATH": f"{self.environment}/bin:{tools}"}}
        blocks = list(blocks_of((ROOT / "docs" / "TUTORIAL.md").read_text()))
        for block in blocks:
            for _, command, printed in commands_of(block) if block.language == "console" else ():
                said = ran(tools / "sh", "-c", command, **named)
                self.assertEqual((said.stdout + said.stderr).rstrip("\n"), printed, command)
        sessions = [it for it in blocks if it.language == "pycon"]
        python = self.environment / "bin" / "python"
        said = ran(python, ROOT / "tests" / "worked.py", input=session_of(sessions), **named)
        self.assertEqual(said.stdout + said.stderr, f"{DONE}\n" * len(sessions))

    def test_pages_are_installed(self) -> None:
        share = self.environment / "share"
        python = self.environment / "bin" / "python"
        for file, page in (
            ("man/man1/storklocker.1", "man"),
            ("bash-completion/completions/storklocker", "bash"),
            ("zsh/site-functions/_storklocker", "zsh"),
            ("fish/vendor_completions.d/storklocker.fish", "fish"),
        ):
            said = ran(python, "-m", "storklocker.pages", page, cwd="/")
            self.assertEqual((share / file).read_text(), said.stdout, said.stderr)

    def test_metadata(self) -> None:
        python = self.environment / "bin" / "python"
        read = "importlib.metadata.distribution('storklocker').read_text('METADATA')"
        code = f"import importlib.metadata; print({read})"
        said = ran(python, "-c", code, cwd="/").stdout
        for line in ("Author: ", "Keywords: ", "# Storklocker"):
            self.assertIn(f"\n{line}", said)
        self.assertIn("\nDescription-Content-Type: text/markdown\n", said)

    def test_wheels_name_every_system(self) -> None:
        (wheel,) = wheels().glob(f"storklocker-*_{platform.machine()}.whl")
        for system in ("manylinux2014", "manylinux_2_17", "musllinux_1_1"):
            self.assertIn(f"{system}_{platform.machine()}", wheel.name)

    def test_the_source_distribution_builds(self) -> None:
        """With nothing but a C compiler, for CPython and PyPy."""
        version = (ROOT / "VERSION").read_text().strip()
        listed = ROOT / "examples" / "pickles" / "ordered-dict.pickle"
        built = 0
        for interpreter in ("/usr/bin/python3", "pypy3"):
            bin_ = self.build(interpreter, wheels() / f"storklocker-{version}.tar.gz")
            if bin_ is None:
                continue
            for words, status, said in (
                (("--version",), 0, f"storklocker {version}"),
                (("dis", listed), 0, "REDUCE"),
                (("scan", self.files() / "bad.pkl"), 1, "os.system"),
            ):
                tried = ran(bin_ / "storklocker", *words, cwd="/")
                self.assertEqual(tried.returncode, status, tried.stdout + tried.stderr)
                self.assertIn(said, tried.stdout)
            self.assertTrue((bin_.parent / "share/man/man1/storklocker.1").exists())
            built += 1
        if not built:
            self.skipTest("no interpreter with venv, setuptools 61, wheel and Python.h")

    def test_the_source_distribution_builds_elsewhere(self) -> None:
        """Without an archive for the processor, of C."""
        version = (ROOT / "VERSION").read_text().strip()
        name = f"storklocker-{version}"
        subprocess.run(["tar", "-xzf", wheels() / f"{name}.tar.gz"], cwd=self.folder, check=True)
        checker = self.folder / name / "checker"
        if not (checker / "made").exists():
            self.skipTest("this source distribution has no checker in C")
        for archive in checker.glob("*.[ag]*"):
            archive.unlink()
        bin_ = self.build("/usr/bin/python3", checker.parent)
        if bin_ is None:
            self.skipTest("no interpreter with venv, setuptools 61, wheel and Python.h")
        scanned = ran(bin_ / "storklocker", "scan", self.files() / "bad.pkl", cwd="/")
        self.assertEqual(scanned.returncode, 1, scanned.stdout + scanned.stderr)
        self.assertIn("os.system", scanned.stdout)
        listed = ran(bin_ / "storklocker", "dis", self.files() / "bad.pkl", cwd="/")
        self.assertEqual((listed.returncode, listed.stdout), (2, ""))
        self.assertIn("this package has none", listed.stderr)

    def test_the_debian_package_builds(self) -> None:
        for it in ("dpkg-buildpackage", "dh", "pybuild"):
            if shutil.which(it) is None:
                self.skipTest(f"without {it}")
        version = (ROOT / "VERSION").read_text().strip()
        source, made = wheels() / f"storklocker-{version}.tar.gz", self.folder / "debian"
        said = ran(ROOT / "packaging" / "debian" / "make", source, made)
        if "Unmet build dependencies" in said.stderr:
            self.skipTest(said.stderr.strip().splitlines()[0])
        self.assertEqual(said.returncode, 0, said.stdout + said.stderr)
        (package,) = made.glob("python3-storklocker_*.deb")
        subprocess.run(["dpkg-deb", "-x", package, made], check=True)
        place = {"PYTHONPATH": str(made / "usr/lib/python3/dist-packages")}
        words = ("-m", "storklocker", "scan", self.files() / "bad.pkl")
        scanned = ran("/usr/bin/python3", *words, cwd="/", env=place)
        self.assertEqual(scanned.returncode, 1, scanned.stdout + scanned.stderr)
        self.assertTrue((made / "usr/share/man/man1/storklocker.1.gz").exists())

    def build(self, interpreter: str, source: Path) -> Optional[Path]:
        """The folder of commands of an environment with the package, built from a source
        distribution; None if the interpreter lacks what that takes.
        """
        folder = Path(tempfile.mkdtemp(dir=self.folder))
        needs = "import os, setuptools, sys, sysconfig, wheel"
        needs += "; os.stat(sysconfig.get_path('include') + '/Python.h')"
        # (Debian 11 has an older PyPy, and a setuptools that reads no pyproject.toml)
        needs += "; assert sys.version_info >= (3, 8)"
        needs += "; assert int(setuptools.__version__.partition('.')[0]) >= 61"
        lacks = shutil.which("cc") is None or shutil.which(interpreter) is None
        # (setuptools and wheel are the system's: a new environment of today's Python has neither)
        made = ("-m", "venv", "--system-site-packages", folder)
        if lacks or ran(interpreter, *made).returncode != 0:
            return None
        if ran(folder / "bin" / "python", "-c", needs).returncode != 0:
            return None
        words = ("install", "-q", "--no-index", "--no-build-isolation", "--no-cache-dir", source)
        tried = ran(folder / "bin" / "pip", *words)
        self.assertEqual(tried.returncode, 0, tried.stdout + tried.stderr)
        return folder / "bin"

    def test_hooks(self) -> None:
        files, hooks = self.files(), parsed(".pre-commit-hooks.yaml")
        self.assertEqual([it["id"] for it in hooks], ["storklocker-scan", "storklocker-lint"])
        for hook in hooks:
            script = shlex.split(hook["entry"])[0]
            self.assertTrue(os.access(ROOT / script, os.X_OK), script)
        scanned = re.compile(hooks[0]["files"])
        for name in ("a.pkl", "b/c.PT", "model.joblib", "x.npz"):
            self.assertTrue(scanned.search(name), name)
        for name in ("a.py", "README.md", "pickles.toml"):
            self.assertFalse(scanned.search(name), name)
        clone = self.clone()
        for name, status in (("good.pickle", 0), ("bad.pkl", 1)):
            words = shlex.split(hooks[0]["entry"])
            said = ran(clone / words[0], *words[1:], name, cwd=files)
            self.assertEqual(said.returncode, status, said.stdout + said.stderr)
        for words in (("--version",), ("dis", "good.pickle")):
            said = ran(clone / "release/storklocker", *words, cwd=files)
            self.assertEqual((said.returncode, said.stderr), (0, ""))

    def clone(self) -> Path:
        """A folder with the script and the wheels that a hook uses."""
        release = Path(tempfile.mkdtemp(dir=self.folder)) / "release"
        release.mkdir()
        shutil.copy(ROOT / "release" / "storklocker", release)
        for wheel in wheels().glob("*.whl"):
            shutil.copy(wheel, release)
        summed = subprocess.run(
            ["sh", "-c", "sha256sum *.whl"], cwd=release, capture_output=True, check=True
        )
        (release / "SHA256SUMS").write_bytes(summed.stdout)
        return release.parent

    def test_a_changed_wheel_is_not_run(self) -> None:
        clone = self.clone()
        (wheel,) = (clone / "release").glob(f"*_{platform.machine()}.whl")
        wheel.write_bytes(wheel.read_bytes() + b"\0")
        said = ran(clone / "release/storklocker", "--version")
        self.assertEqual(said.returncode, 2)
        self.assertIn("doesn't match SHA256SUMS", said.stderr)

    def test_a_clone_of_another_user(self) -> None:
        """That can't be written to, or was used by somebody else before."""
        files, clone, temporary = self.files(), self.clone(), Path(tempfile.mkdtemp())
        self.addCleanup(shutil.rmtree, temporary)
        out = clone / "release" / "out"
        out.touch()  # root writes to any folder
        for name, status in (("good.pickle", 0), ("bad.pkl", 1)):
            named: Dict[str, Any] = {"cwd": files, "env": {"TMPDIR": str(temporary), "HOME": "/no"}}
            said = ran(clone / "release/storklocker", "scan", name, **named)
            self.assertEqual((said.returncode, said.stderr), (status, ""), said.stdout)
            self.assertEqual(list(temporary.iterdir()), [])
        out.unlink()
        words = ("sh", "-c", 'umask 022; exec "$1" --version', "sh", clone / "release/storklocker")
        self.assertEqual(ran(*words).returncode, 0)
        (unpacked,) = out.iterdir()
        self.assertEqual(oct(unpacked.stat().st_mode & 0o777), oct(0o755))

    def test_workflow(self) -> None:
        jobs: Dict[str, Any] = parsed("examples/ci/github-workflow.yml")["jobs"]
        (own,) = (it for it in jobs["scan"]["steps"] if "/.github@" in it["uses"])
        self.assertLessEqual(set(own["with"]), set(parsed(".github/action.yml")["inputs"]))

    def test_action(self) -> None:
        action, clone, runner = parsed(".github/action.yml"), self.clone(), self.folder / "runner"
        runner.mkdir()
        (clone / ".github").mkdir()
        around = {"RUNNER_TEMP": str(runner), "GITHUB_OUTPUT": str(runner / "output"),
                  "GITHUB_ACTION_PATH": str(clone / ".github")}
        install, scan = [it for it in action["runs"]["steps"] if "run" in it]
        self.assertEqual(self.acted(install, clone, around), 0)
        inputs = {name: it["default"] for name, it in action["inputs"].items()}
        for given, status, wanted in (
            ({}, 1, '"os.system'), ({"path": "good.pickle"}, 0, '"results": [\n]'),
            ({"path": "good.pickle\nbad.pkl", "format": "table"}, 1, "os.system"),
            ({"fail-on": "never", "output": "a b.sarif"}, 0, '"os.system'),
            ({"allow": "@datetime\n@numpy,@pandas"}, 1, "refused"),
            ({"path": "$(touch ran) `touch ran`; touch ran"}, 2, "No such file"),
        ):
            files, its = self.files(), {**inputs, **given}
            self.assertEqual(self.acted(scan, files, around, its), status, given)
            self.assertIn(wanted, (files / its["output"]).read_text())
            self.assertIn(f"report={its['output']}\n", (runner / "output").read_text())
            self.assertFalse((files / "ran").exists(), "an input ran")

    def acted(
        self,
        step: Any,
        files: Path,
        around: Dict[str, str],
        inputs: Optional[Dict[str, str]] = None,
    ) -> int:
        """The status of a step of the action, with these inputs."""
        self.assertNotIn("${{", step["run"], "an input in a script can run anything")
        named = {f"${{{{ inputs.{name} }}}}": value for name, value in (inputs or {}).items()}
        env = {name: named[value] for name, value in step.get("env", {}).items()}
        words = ("bash", "--noprofile", "--norc", "-eo", "pipefail", "-c", step["run"])
        return ran(*words, cwd=files, env={**around, **env}).returncode

    def test_dockerfile(self) -> None:
        lines = (ROOT / "examples/ci/Dockerfile").read_text().splitlines()
        said = dict(line.split(" ", 1) for line in lines if not line.startswith("#"))
        self.assertLessEqual(len(lines), 10)
        source, target = said["COPY"].split()
        self.assertTrue(list(ROOT.glob(source)))
        words = said["RUN"].replace("/wheels", str(wheels())).replace("pip ", "pip -q ", 1)
        again = self.folder / "docker"
        venv.create(again, with_pip=True)
        installed = ran("sh", "-euc", words, env={"PATH": f"{again}/bin:{os.environ['PATH']}"})
        self.assertEqual(installed.returncode, 0, installed.stderr)
        self.assertEqual((target, said["ENTRYPOINT"]), ("/wheels/", '["storklocker"]'))
        command = [again / "bin" / "storklocker", *eval(said["CMD"])]
        self.assertEqual(ran(*command, cwd=self.files()).returncode, 1)


def main() -> int:
    parser = argparse.ArgumentParser(description=__doc__)
    parser.add_argument("--wheels", help="the folder of the wheels; by default release")
    given = parser.parse_args()
    if given.wheels:
        os.environ["WHEELS"] = given.wheels
    suite = unittest.defaultTestLoader.loadTestsFromTestCase(Packages)
    result = unittest.TextTestRunner(stream=sys.stdout, verbosity=1).run(suite)
    failed, skipped = len(result.failures) + len(result.errors), len(result.skipped)
    for test, why in result.skipped:
        print(f"skipped: {test}: {why}")
    for test, trace in result.failures + result.errors:
        print(f"failed: {test}: {trace.strip().splitlines()[-1][:500]}")
    passed = max(0, result.testsRun - failed - skipped)
    print(f"{passed} passed, {failed} failed, {skipped} skipped")
    return 0 if not failed else 1


if __name__ == "__main__":
    sys.exit(main())

"""Zip files as common tools make them: nothing is found in honest ones, hostile ones are told."""

import io
import pathlib
import pickle
import random
import shutil
import subprocess
import tempfile
import unittest
import zipapp
import zipfile

from storklocker.scanning.judging import Question, reports_of
from storklocker.scanning.severity import DANGER, UNREADABLE

EVIL = b"cos\nsystem\n(S'echo a hostile pickle ran'\ntR."
GOOD = pickle.dumps({"a": 1})
COMMIT = b"0123456789abcdef0123456789abcdef01234567"
UNPACKER = b"MZ" + bytes(90) + b"\x81>PK\5\6\x0f\x85\xc3\x02\x81>PK\3\4u\xc0\x0f\xbfN \x83\xc2."
"""As a program has the first bytes of headers that it looks for."""
CLASS = b"\xca\xfe\xba\xbe\0\0\0\x34" + bytes(90)
COMMIT_256 = COMMIT + COMMIT[:24]


def zipped(data, front=b"", comment=b"", many=0):
    """A zip file behind other bytes, from which the offsets count."""
    made = io.BytesIO(front)
    made.seek(0, 2)
    with zipfile.ZipFile(made, "w") as archive:  # (which reads nothing of the front)
        archive.writestr("__main__.py", "print(1)\n")
        archive.writestr("a.pkl", data)
        for number in range(many):
            archive.writestr(f"com/example/Class{number}.class", b"\xca\xfe\xba\xbe" + bytes(90))
        archive.comment = comment
    return made.getvalue()


def severities(data):
    found = reports_of("file", io.BytesIO(data), Question())
    return {it.severity for report in found for it in report.findings}


class HonestZips(unittest.TestCase):
    FILES = {
        "of git archive": lambda data: zipped(data, comment=COMMIT),
        "of git archive, by SHA-256": lambda data: zipped(data, comment=COMMIT_256),
        "a zipapp": lambda data: zipped(data, b"#!/usr/bin/env python3\n"),
        "one that unpacks itself": lambda data: zipped(data, b"MZ" + bytes(5000)),
        "one that looks for headers": lambda data: zipped(data, UNPACKER),
        "behind a launcher": lambda data: b"MZ" + bytes(5000) + b"#!python\n" + zipped(data),
    }

    def test_nothing_is_found_in_honest_ones(self):
        for name, make in self.FILES.items():
            self.assertEqual(set(), severities(make(GOOD)), name)

    def test_hostile_ones_are_told(self):
        for name, make in self.FILES.items():
            data = make(EVIL)
            with zipfile.ZipFile(io.BytesIO(data)) as archive:
                self.assertEqual(archive.read("a.pkl"), EVIL, name)
            self.assertIn(DANGER, severities(data), name)

    def test_many_members(self):
        self.assertEqual(set(), severities(zipped(GOOD, many=21_000)))

    def test_those_that_readers_take_differently(self):
        for data in (
            zipped(GOOD, comment=b"a comment"),
            zipped(GOOD, comment=COMMIT.upper()),
            zipped(GOOD, comment=COMMIT) + b"\n",
            zipped(GOOD, comment=COMMIT[:39]),
            zipped(GOOD, comment=COMMIT_256[:63]),
            zipped(GOOD, comment=COMMIT) + COMMIT_256[:24],
            b"#!python\n" + zipped(GOOD) + zipped(GOOD),
            b"MZ" + zipped(EVIL) + zipped(GOOD),
            b"text\n" + zipped(GOOD),
        ):
            self.assertIn(UNREADABLE, severities(data), data[:20])


class OfTools(unittest.TestCase):
    """What the tools themselves make of a folder with a pickle."""

    def setUp(self):
        folder = tempfile.TemporaryDirectory()
        self.addCleanup(folder.cleanup)
        self.folder = pathlib.Path(folder.name)
        self.tree, self.made = self.folder / "tree", self.folder / "made"

    def check(self, make):
        """Nothing is found in what is made of an honest tree; a hostile twin is told."""
        for data in (GOOD, EVIL):
            self.tree.mkdir()
            (self.tree / "__main__.py").write_text("print(1)\n")
            (self.tree / "a.pkl").write_bytes(data)
            make()
            with zipfile.ZipFile(self.made) as archive:
                self.assertEqual(archive.read("a.pkl"), data, "the control")
            found = severities(self.made.read_bytes())
            self.assertEqual(DANGER in found if data == EVIL else found == set(), True, found)
            shutil.rmtree(self.tree)
            self.made.unlink()

    def run_tool(self, *words):
        found = shutil.which(words[0])
        if found is None:
            self.skipTest(f"there is no {words[0]}")
        done = subprocess.run([found, *words[1:]], cwd=self.tree, capture_output=True, text=True)
        if done.returncode:
            self.skipTest(f"{words[0]} can't do that here: {done.stderr[-200:]}")

    def test_git_archive(self):
        for form in ("sha1", "sha256"):
            with self.subTest(form):
                self.check(lambda: self.git_archive(form))

    def git_archive(self, form):
        who = ("-c", "user.name=a", "-c", "user.email=a@example.org")
        self.run_tool("git", "init", "--quiet", f"--object-format={form}")
        self.run_tool("git", "add", ".")
        self.run_tool("git", *who, "commit", "--quiet", "--message", "a")
        self.run_tool("git", "archive", "--format=zip", f"--output={self.made}", "HEAD")
        with zipfile.ZipFile(self.made) as archive:
            self.assertEqual(len(archive.comment), {"sha1": 40, "sha256": 64}[form])

    def test_a_zipapp(self):
        for shebang in (None, "/usr/bin/env python3"):
            self.check(lambda: zipapp.create_archive(self.tree, self.made, shebang))

    def test_a_jar(self):
        self.check(lambda: self.run_tool("jar", "cf", str(self.made), "."))

    def test_a_large_jar(self):
        self.check(self.large_jar)

    def large_jar(self):
        numbers = io.BytesIO(random.Random(1).getrandbits(8 * 400 * 25_000).to_bytes(10**7, "big"))
        with zipfile.ZipFile(self.made, "w", zipfile.ZIP_DEFLATED) as archive:
            archive.writestr("META-INF/MANIFEST.MF", "Manifest-Version: 1.0\r\n\r\n")
            archive.write(self.tree / "a.pkl", "a.pkl")
            for number in range(25_000):
                archive.writestr(f"com/example/Class{number}.class", CLASS + numbers.read(400))


if __name__ == "__main__":
    unittest.main()

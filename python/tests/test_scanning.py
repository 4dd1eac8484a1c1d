"""The command `storklocker`: what files are, what they would import, hostile files and names."""

import bz2
import contextlib
import datetime
import gzip
import io
import json
import lzma
import os
import pathlib
import pickle
import subprocess
import sys
import tarfile
import tempfile
import unittest
import unittest.mock
import zipfile
import zlib
from collections import OrderedDict

import storklocker
from common import needs
from storklocker.scanning import budget
from storklocker.scanning.command import main

LIST = 'version = 1\n[imports]\ncollections = ["OrderedDict"]\ndatetime = ["datetime"]\n'
GOOD = pickle.dumps(OrderedDict(when=datetime.datetime(2026, 1, 2)), 4)
PLAIN = pickle.dumps({"a": [1, 2, None]}, 0)


class Command:
    """Pickles as a call of os.system."""

    def __reduce__(self):
        return (os.system, ("echo a hostile pickle ran",))


BAD = pickle.dumps(Command(), 4)


def zipped(*members, packed=zipfile.ZIP_STORED):
    """A zip file of these members."""
    made = io.BytesIO()
    with zipfile.ZipFile(made, "w", packed) as archive:
        for name, data in members:
            archive.writestr(name, data)
    return made.getvalue()


def tarred(*members):
    """A tar file of these members."""
    made = io.BytesIO()
    with tarfile.open(fileobj=made, mode="w") as archive:
        for name, data in members:
            entry = tarfile.TarInfo(name)
            entry.size = len(data)
            archive.addfile(entry, io.BytesIO(data))
    return made.getvalue()


def npy(data):
    """An array of objects, whose pickle this is."""
    header = b"{'descr': '|O', 'fortran_order': False, 'shape': (1,), }\n"
    return b"\x93NUMPY\x01\x00" + len(header).to_bytes(2, "little") + header + data


class Scanning(unittest.TestCase):
    """Each test has a folder, and runs the command in this process."""

    def setUp(self):
        held = tempfile.TemporaryDirectory()
        self.addCleanup(held.cleanup)
        self.folder = pathlib.Path(held.name)
        self.list = self.put("list.toml", LIST.encode())

    def put(self, name, data):
        path = self.folder / name
        path.write_bytes(data)
        return str(path)

    def run_command(self, *words):
        out = io.StringIO()
        with contextlib.redirect_stdout(out):
            status = main([str(word) for word in words])
        return status, out.getvalue()

    def scanned(self, name, data, *words):
        path = self.put(name, data)
        words = ("--allow", self.list, "--format", "json", *words)
        status, out = self.run_command("scan", path, *words)
        return status, {it["path"][len(path) :]: it for it in json.loads(out)}

    def test_plain_files(self):
        for data, status, verdict in (
            (GOOD, 0, "accepted"),
            (PLAIN, 0, "accepted"),
            (BAD, 1, "refused"),
            (GOOD[:30], 1, "refused"),
            (b"cos\nsystem\n(S'id'\ntR and no more", 1, "refused"),
            (b"Under the tree\n", 0, "no pickle"),
            (b"", 0, "no pickle"),
            (bytes(range(256)) * 300, 0, "no pickle"),
        ):
            found, reports = self.scanned("file", data)
            self.assertEqual((found, reports[""]["status"]), (status, verdict), data[:40])

    def test_what_is_off_the_list(self):
        _, reports = self.scanned("file", BAD)
        self.assertEqual(reports[""]["missing"], [["posix", "system"]])
        self.assertEqual(reports[""]["why"], 'no at 28: ImportOffList("posix","system")')
        self.assertIn("28: 93 STACK_GLOBAL", [it["line"] for it in reports[""]["listing"]])
        kinds = [it["kind"] for it in reports[""]["findings"]]
        self.assertEqual(kinds, ["refused", "dangerous-import"])

    def test_rows(self):
        status, reports = self.scanned("row", GOOD + PLAIN + GOOD)
        self.assertEqual((status, reports[""]["pickles"]), (0, 3))
        status, reports = self.scanned("row", GOOD + PLAIN + BAD)
        self.assertEqual(status, 1)
        place = len(GOOD + PLAIN) + 28
        why = f'no in pickle 2 at {place}: ImportOffList("posix","system")'
        self.assertEqual(reports[""]["why"], why)

    def test_containers(self):
        wraps = {
            "gzip": gzip.compress,
            "bzip2": bz2.compress,
            "xz": lzma.compress,
            "zlib": zlib.compress,
            "zip": lambda data: zipped(("a", data)),
            "tar": lambda data: tarred(("a", data)),
            "npy": npy,
            "npz": lambda data: zipped(("a.npy", npy(data))),
            "tgz": lambda data: gzip.compress(tarred(("a", data))),
            "tar in tar": lambda data: tarred(("b", tarred(("a", data)))),
            "zip in gzip": lambda data: gzip.compress(zipped(("a", data))),
        }
        for name, wrap in wraps.items():
            for data, status in ((GOOD, 0), (BAD, 1)):
                found, reports = self.scanned("file", wrap(data))
                self.assertEqual(found, status, (name, reports))

    def test_checkpoints(self):
        made = zipped(("m/data.pkl", GOOD), ("m/data/0", b"\0"))
        status, reports = self.scanned("model.pt", made)
        self.assertEqual(status, 0, reports)
        status, reports = self.scanned("model.pt", zipped(("m/data.pkl", GOOD), ("m/x.bin", BAD)))
        self.assertEqual(status, 1)
        status, reports = self.scanned("m.pt", zipped(("m/data.pkl", GOOD), ("n/data.pkl", GOOD)))
        self.assertEqual(status, 2)
        self.assertIn("2 members are called data.pkl", reports[""]["why"])

    def test_broken_and_encrypted(self):
        whole = zipped(("a", GOOD))
        encrypted = bytearray(whole)
        encrypted[6] |= 1
        encrypted[whole.index(b"PK\x01\x02") + 8] |= 1
        damaged = bytearray(whole)
        damaged[40] ^= 255
        for data in (whole[:40], bytes(encrypted), bytes(damaged), gzip.compress(GOOD)[:-9]):
            status, reports = self.scanned("file", data)
            self.assertIn(status, (1, 2), reports)
            self.assertNotIn("accepted", [it["status"] for it in reports.values()])

    def test_bombs(self):
        zeros = bytes(1 << 20)
        packed = gzip.compress(zeros)
        status, reports = self.scanned("bomb.gz", packed * 200)
        self.assertEqual(status, 2, reports)
        self.assertIn("times its size", str(reports))
        archive = zipped(("zeros", zeros * 100), packed=zipfile.ZIP_DEFLATED)
        self.assertEqual(self.scanned("bomb.zip", archive)[0], 2)
        nested = GOOD
        for _ in range(9):
            nested = tarred(("a", nested))
        self.assertIn("nested more than", str(self.scanned("nested.tar", nested)[1]))

    def test_many_members(self):
        made = zipped(*((f"{number}", b"x") for number in range(100)))
        with unittest.mock.patch.multiple(budget, MEMBERS=50, _MEMBER_BYTES=1 << 30):
            status, reports = self.scanned("many.zip", made)
        self.assertEqual(status, 2)
        self.assertIn("more than 50 members", str(reports))

    def test_hostile_names(self):
        name = "\x1b[31m\u202e<script>alert(1)<!--.pickle"
        path = self.put(name, BAD)
        _, table = self.run_command("scan", path)
        self.assertNotIn("\x1b", table)
        self.assertNotIn("\u202e", table)
        _, page = self.run_command("scan", path, "--format", "html")
        self.assertNotIn("<script>alert", page)
        self.assertNotIn("\x1b", page)
        self.assertEqual(page.count("<script>"), 1)

    def test_formats(self):
        path = self.put("bad", BAD)
        _, out = self.run_command("scan", path, "--format", "sarif", "--allow", self.list)
        run = json.loads(out)["runs"][0]
        self.assertEqual({it["ruleId"] for it in run["results"]}, {"refused", "dangerous-import"})
        status, out = self.run_command("scan", path, "--fail-on", "never", "--allow", self.list)
        self.assertEqual(status, 0)
        self.assertIn("off the list: posix.system", out)
        for words, status in (((), 1), (("danger",), 1), (("refused",), 0), (("never",), 0)):
            words = words and ("--fail-on", *words)
            self.assertEqual(self.run_command("scan", path, *words)[0], status, words)

    @needs("semaphores")
    def test_folders_and_processes(self):
        (self.folder / "below").mkdir()
        self.put("below/bad", BAD)
        for number in range(20):
            self.put(f"good{number}", GOOD)
        words = ("scan", self.folder, "--allow", self.list)
        one = self.run_command(*words)
        self.assertEqual(one[0], 1)
        self.assertEqual(self.run_command(*words, "--jobs", "3"), one)
        self.assertEqual(self.run_command(*words, "--no-recursive")[0], 2)
        for command in ("check", "imports"):
            more = words[2:] if command == "check" else ()
            self.assertIn(str(self.folder / "below"), self.run_command(command, words[1], *more)[1])

    def test_check_and_imports(self):
        good, bad = self.put("good", GOOD), self.put("bad", BAD)
        status, out = self.run_command("check", "--allow", self.list, good)
        self.assertEqual((status, out), (0, f"yes: {len(GOOD)} bytes, 2 imports\n"))
        self.assertEqual(self.run_command("check", "--allow", self.list, good, bad)[0], 1)
        status, out = self.run_command("imports", bad)
        self.assertEqual(out.splitlines()[0], '"posix" "system"')

    def test_learn_reads_back(self):
        names = {("größe.maß", "Länge"), ("a.b", 'q"u\\o'), ("collections", "OrderedDict")}
        data = b"".join(f"c{module}\n{name}\n0".encode() for module, name in sorted(names))
        data = b"\x80\x04" + b"".join(
            b"\x8c%c%b\x8c%c%b\x930" % (len(m.encode()), m.encode(), len(n.encode()), n.encode())
            for m, n in sorted(names)
        ) + b"N."
        path = self.put("trusted", data)
        status, out = self.run_command("learn", path)
        self.assertEqual(status, 0, out)
        self.assertEqual(set(storklocker.AllowList.from_text(out)), names)
        status, out = self.run_command("learn", self.put("cut", GOOD[:20]))
        self.assertEqual(status, 2)
        self.assertIn("# left out", out)

    def test_usage(self):
        for words in (("scan",), ("scan", "x", "--jobs", "0"), ("fly",), ()):
            with self.assertRaises(SystemExit) as caught, contextlib.redirect_stderr(io.StringIO()):
                main(list(words))
            self.assertEqual(caught.exception.code, 2)
        errors = io.StringIO()
        with contextlib.redirect_stderr(errors):
            status, _ = self.run_command("scan", self.list, "--allow", self.folder / "none")
        self.assertEqual(status, 2)
        self.assertIn("No such file", errors.getvalue())
        self.assertEqual(self.run_command("scan", self.folder / "none")[0], 2)

    def test_pipes(self):
        words = [sys.executable, "-m", "storklocker.scanning.command", "scan", "-"]
        ran = subprocess.run(words, input=BAD, capture_output=True, check=False)
        self.assertEqual(ran.returncode, 1)
        self.assertIn(b"posix.system", ran.stdout)


if __name__ == "__main__":
    unittest.main()

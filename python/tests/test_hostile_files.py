"""`storklocker scan` on files that are made to stop it, to blind it, or to be passed over."""

import bz2
import contextlib
import gzip
import hashlib
import io
import itertools
import json
import lzma
import os
import pathlib
import pickle
import random
import signal
import socket
import subprocess
import sys
import threading
import time
import unittest
import unittest.mock
import zlib

import test_scanning
from common import IMPORTED_FROM, needs
from storklocker.scanning import budget, one_file
from storklocker.scanning.file import File
from storklocker.scanning.judging import Question
from test_scanning import BAD, GOOD, LIST, npy, tarred, zipped

LARGE = pickle.dumps([random.Random(1).getrandbits(8 * 300_000).to_bytes(300_000, "little")], 4)
BEHIND = BAD + bytes(300_000)
SECONDS = 180
"""How long a process may take. Only one that hangs takes that long, however busy the machine is."""


def command(*words, **named):
    """The command in a process of its own."""
    environment = {**os.environ, "PYTHONPATH": str(IMPORTED_FROM), **named.pop("more", {})}
    words = [sys.executable, "-m", "storklocker.scanning.command", *map(str, words)]
    return subprocess.Popen(
        words, env=environment, stdout=subprocess.PIPE, stderr=subprocess.PIPE, **named
    )


def told(*words, given=b"", **named):
    """Status, output and errors of the command."""
    began = command(*words, stdin=subprocess.PIPE, **named)
    out, errors = began.communicate(given, timeout=SECONDS)
    return began.returncode, out.decode("utf-8"), errors.decode("utf-8")


def told_from(other, *words):
    """The same, where standard input is the output of another process."""
    began = command(*words, stdin=other.stdout)
    other.stdout.close()
    out, errors = began.communicate(timeout=SECONDS)
    other.wait()
    return began.returncode, out.decode("utf-8"), errors.decode("utf-8")


def opened_for_writing(pipe):
    """The pipe, once somebody reads from it."""
    last = time.monotonic() + SECONDS
    while time.monotonic() < last:
        try:
            return os.open(pipe, os.O_WRONLY | os.O_NONBLOCK)
        except OSError:
            time.sleep(0.05)
    raise AssertionError("nobody reads from the pipe")


class HostileFiles(unittest.TestCase):
    setUp, put = test_scanning.Scanning.setUp, test_scanning.Scanning.put
    run_command, scanned = test_scanning.Scanning.run_command, test_scanning.Scanning.scanned

    def test_broken_behind_the_first_bytes(self):
        damaged = bytearray(zipped(("a", LARGE), ("b", BAD)))
        damaged[250_000] ^= 1
        for data in (
            gzip.compress(LARGE)[:200_000], lzma.compress(LARGE)[:200_000],
            bz2.compress(LARGE)[:200_000], zlib.compress(LARGE)[:200_000],
            tarred(("a", LARGE))[:200_000],
        ):
            status, reports = self.scanned("file", data)
            self.assertEqual(status, 2, reports)
        status, reports = self.scanned("file", bytes(damaged))
        self.assertEqual(status, 1)
        self.assertIn("CRC", reports["!a"]["why"])
        self.assertEqual(reports["!b"]["status"], "refused")

    def test_a_refusal_is_kept_where_the_rest_is_broken(self):
        damaged = bytearray(zipped(("a", BEHIND)))
        damaged[250_000] ^= 1
        path = self.put("file", bytes(damaged))
        status, out = self.run_command("scan", path, "--allow", self.list)
        self.assertEqual(status, 1, out)
        self.assertIn("CRC", out)

    def test_the_digest_is_of_all_bytes(self):
        _, reports = self.scanned("file", BEHIND)
        self.assertEqual(reports[""]["sha256"], hashlib.sha256(BEHIND).hexdigest())
        self.assertEqual(reports[""]["size"], len(BEHIND))

    def test_headers_of_arrays(self):
        for header in (b"5", b"{'a': 1}", b"{[]: 1}", b"(" * 60_000, b"-" * 60_000 + b"1", b""):
            data = b"\x93NUMPY\x01\x00" + len(header).to_bytes(2, "little") + header + BAD
            status, reports = self.scanned("file", data)
            self.assertEqual(status, 2, (header[:9], reports))
            self.assertIn("its header can't be read", reports[""]["why"])
        self.assertEqual(self.scanned("file", npy(b"no pickle"))[0], 1)

    def test_a_pickle_that_unpacks_to_very_much(self):
        packer, zeros = zlib.compressobj(9, zlib.DEFLATED, 31), bytes(1 << 20)
        packed = packer.compress(b"\x80\x04\x8e" + (2 << 30).to_bytes(8, "little"))
        for _ in range(1100):
            packed += packer.compress(zeros)
        status, reports = self.scanned("file", packed + packer.flush())
        self.assertEqual(status, 2)
        self.assertIn("unpacks to more", str(reports))

    def test_a_name_of_joblib_excuses_nothing(self):
        name = b"cjoblib.numpy_pickle\nNumpyArrayWrapper\n0"
        listed = LIST + 'joblib.numpy_pickle = ["NumpyArrayWrapper"]\n'
        listed = listed.replace("joblib.numpy_pickle", '"joblib.numpy_pickle"')
        both = self.put("both.toml", listed.encode())
        for data, words, status, verdict in (
            (name + BAD, (), 1, "refused"), (name + b"N.", (), 1, "refused"),
            (name + BAD[2:], ("--allow", both), 1, "refused"),
            (name + b"N.", ("--allow", both), 0, "accepted"),
        ):
            found, reports = self.scanned("file", data, *words)
            self.assertEqual((found, reports[""]["status"]), (status, verdict), data)
            self.assertEqual(reports[""]["kind"], "joblib")

    def test_a_row_of_very_many(self):
        kept, budget.PICKLES = budget.PICKLES, 50
        try:
            for data, status in ((b"N." * 49, 0), (b"N." * 51, 2), (BAD + b"N." * 50, 1)):
                for wrap in (bytes, gzip.compress, lambda data: zipped(("a", data), ("b", GOOD))):
                    found, reports = self.scanned("file", wrap(data))
                    self.assertEqual(found, status, reports)
                    self.assertEqual("more than 50 pickles" in str(reports), status > 0)
        finally:
            budget.PICKLES = kept

    def test_tar_files(self):
        broken = bytearray(tarred(("a", GOOD), ("b", BAD)))
        broken[1024 + 148] ^= 1  # the checksum of the second header
        status, reports = self.scanned("file", bytes(broken))
        self.assertEqual((status, reports["!a"]["status"]), (2, "accepted"))
        self.assertIn("the rest was not read", reports[""]["why"])
        odd, old = bytearray(tarred(("a", BAD))), bytearray(tarred(("a", BAD)))
        odd[156:157], old[257:265] = b"Z", bytes(8)
        for data in (odd, old, tarred(("a", GOOD)) + tarred(("b", BAD))):
            if isinstance(data, bytearray):
                data[148:156] = b" " * 8
                data[148:156] = b"%06o\0 " % sum(data[:512])
            self.assertEqual(self.scanned("file", bytes(data))[0], 1)

    def test_zip_files(self):
        nameless = zipped(("QQ", GOOD), ("b", BAD)).replace(b"QQ", b"\0\0")
        for data in (b"MZ" + bytes(99) + zipped(("a", BAD)), zipped(("a/", BAD)), nameless):
            self.assertEqual(self.scanned("file", data)[0], 1)
        for data in (b"PK\x05\x06" + bytes(18), b"text PK\x05\x06" + b"x" * 18, b"]\0\0 text"):
            self.assertEqual(self.scanned("file", data)[0], 0)
        hidden = zipped(("a", BAD))
        hidden = hidden[: hidden.index(b"PK\x01\x02")] + zipped(("b", GOOD))
        status, reports = self.scanned("file", hidden)
        self.assertEqual(status, 1)
        self.assertIn("readers differ", reports[""]["why"])
        archive = zipped(("m/data.pkl", BAD))
        self.assertEqual(told("scan", "-", "--allow", self.list, given=archive)[0], 1)
        endless = subprocess.Popen(["sh", "-c", "printf 'PK\\3\\4'; cat /dev/zero"], stdout=-1)
        status, out, _ = told_from(endless, "scan", "-")
        self.assertEqual(status, 2)
        self.assertIn("comes from a pipe", out)

    def test_other_packers(self):
        packed = lzma.compress(BAD + LARGE, format=lzma.FORMAT_ALONE)
        for size in (-1, 1 << 37, 1 << 40, 1 << 56, (1 << 64) - 2):
            data = packed[:5] + (size % (1 << 64)).to_bytes(8, "little") + packed[13:]
            with lzma.open(io.BytesIO(data), format=lzma.FORMAT_ALONE) as file:
                self.assertEqual(file.read(len(BAD)), BAD)
            self.assertEqual(self.scanned("file", data)[0], 1, size)
        for magic in (
            b"7z\xbc\xaf\x27\x1c", b"Rar!\x1a\x07", b"\x28\xb5\x2f\xfd", b"\x25\xb5\x2f\xfd",
            b"\x04\x22\x4d\x18", b"\x02\x21\x4c\x18", b"\x5a\x2a\x4d\x18", b"LZIP\1",
        ):
            status, reports = self.scanned("file", magic + bytes(40))
            self.assertEqual((status, reports[""]["status"]), (2, "unreadable"))

    def test_what_is_no_file(self):
        os.symlink("loop", self.folder / "loop")
        os.symlink("/nowhere", self.folder / "dangling")
        os.symlink(".", self.folder / "inside")
        os.symlink("/dev", self.folder / "outside")
        os.mkfifo(self.folder / "pipe")
        with socket.socket(socket.AF_UNIX) as bound:
            bound.bind(str(self.folder / "socket"))
        self.put("z", BAD)
        words = ("scan", self.folder, "--allow", self.list, "--format", "json", "--recursive")
        status, out, _ = told(*words)
        self.assertEqual(status, 1)
        found = {os.path.basename(it["path"]): it for it in json.loads(out)}
        self.assertEqual(found["z"]["status"], "refused")
        for name in ("outside", "pipe", "socket"):
            self.assertEqual(found.pop(name)["status"], "unreadable")
        for name in ("loop", "dangling"):  # no reader reads anything there
            self.assertEqual([it["kind"] for it in found[name]["findings"]], ["dangling-link"])
        self.assertNotIn("inside", found)
        for name in ("z", "outside", "pipe", "socket"):
            (self.folder / name).unlink()
        self.assertEqual(told(*words)[0], 0)
        self.assertEqual(told("scan", self.folder / "dangling")[0], 2)

    def test_links_to_elsewhere_are_followed(self):
        for name in ("files", "folders", "around", "other"):
            (self.folder / name).mkdir()
        os.symlink(self.put("other/bad", BAD), self.folder / "files" / "link")
        os.symlink("../other", self.folder / "folders" / "link")
        os.symlink("../folders", self.folder / "other" / "back")
        os.symlink("..", self.folder / "around" / "link")
        for name, wanted, files in (("files", 1, 1), ("folders", 1, 1), ("around", 2, 1)):
            words = (self.folder / name, "--recursive", "--allow", self.list, "--format", "json")
            status, out, _ = told("scan", *words)
            self.assertEqual((status, len(json.loads(out))), (wanted, files), out)

    def test_a_file_that_changes(self):
        """It grows and shrinks while it is read."""
        path = pathlib.Path(self.put("file", zipped(("a", LARGE), ("b", BAD))))
        whole, ends = path.read_bytes(), threading.Event()

        def change():
            sizes = itertools.cycle((0, 100, len(whole) // 2, len(whole) - 30, len(whole)))
            while not ends.is_set():
                path.write_bytes(whole[: next(sizes)])

        changing = threading.Thread(target=change)
        changing.start()
        try:
            for _ in range(100):
                found = one_file.scan_file(File(str(path)), Question())
                self.assertTrue(found)
        finally:
            ends.set()
            changing.join()

    def test_folders_left_out_are_told(self):
        (self.folder / "below").mkdir()
        for command in ("scan", "learn"):
            status, _, errors = told(command, self.folder, "--no-recursive")
            self.assertEqual(status, 2)
            self.assertIn("1 folder left unread", errors)
            self.assertEqual(told(command, self.folder)[::2], (0, ""))

    @needs("semaphores")
    def test_standard_input_beside_several_processes(self):
        status, out, _ = told("scan", "-", "--jobs", "3", "--allow", self.list, given=BAD)
        self.assertEqual(status, 1, out)

    def test_where_no_process_can_begin(self):
        errors, path = io.StringIO(), self.put("file", GOOD)
        fault = unittest.mock.patch("concurrent.futures.ProcessPoolExecutor", side_effect=OSError)
        with fault, contextlib.redirect_stderr(errors):
            status, _ = self.run_command("scan", path, "--jobs", "2")
        self.assertEqual(status, 2)
        self.assertIn("scan with one", errors.getvalue())

    @needs("semaphores")
    def test_a_process_that_is_killed(self):
        pipe = self.folder / "pipe"
        os.mkfifo(pipe)
        ends = ((signal.SIGINT, 130), (signal.SIGTERM, -15), (signal.SIGKILL, -9))
        # A background job of a shell ignores interrupts, and so would what it starts.
        before = signal.signal(signal.SIGINT, signal.default_int_handler)
        self.addCleanup(signal.signal, signal.SIGINT, before)
        for sent, status in ends:
            with self.subTest(sent.name):
                # Python itself may tell that it tidies up behind a process that is killed.
                began = command("scan", pipe, "--jobs", "2", start_new_session=True,
                                more={"PYTHONWARNINGS": "ignore:resource_tracker"})
                writer = opened_for_writing(pipe)
                os.kill(began.pid, sent)
                _, errors = began.communicate(timeout=SECONDS)  # no process is left that holds it
                os.close(writer)
                self.assertEqual((began.returncode, errors), (status, b""))

    def test_check_wants_a_pickle(self):
        for data in (b"", b"plain text", zipped(("a", b"plain text"))):
            path = self.put("file", data)
            self.assertEqual(self.run_command("check", "--allow", self.list, path)[0], 1)

    def test_a_table_has_the_imports(self):
        path = self.put("file", GOOD + BAD)
        _, out = self.run_command("scan", path, "--allow", self.list)
        self.assertIn("imports: datetime.datetime", out)
        self.assertIn("off the list: posix.system", out)
        _, out = self.run_command("scan", path)
        self.assertIn("imports: posix.system", out)
        self.assertIn("dangerous  ", out)
        self.assertNotIn("accepted", out)

    def test_places_in_sarif(self):
        for name, data, member in (("a!b", BAD, None), ("c!d", zipped(("x[1](http://a)", BAD)), 1)):
            path = self.put(name, data)
            _, out = self.run_command("scan", path, "--format", "sarif", "--allow", self.list)
            log = json.loads(out)
            self.assertEqual((log["version"], len(log["runs"])), ("2.1.0", 1))
            driver = log["runs"][0]["tool"]["driver"]
            rules = [rule["id"] for rule in driver["rules"]]
            for result in log["runs"][0]["results"]:
                self.assertIn(result["ruleId"], rules)
                self.assertTrue(result["message"]["text"])
                place = result["locations"][0]
                uri = place["physicalLocation"]["artifactLocation"]["uri"]
                self.assertTrue(uri.endswith(name.replace("!", "%21")), uri)
                self.assertEqual("logicalLocations" in place, bool(member))
                self.assertEqual("byteOffset" in result["properties"], not member)
        bad = b"\x80\x04\x8c\x0e[x](http://a)\n\x8c\x01y\x93."
        path = self.put("file", bad)
        _, out = self.run_command("scan", path, "--format", "sarif", "--allow", self.list)
        self.assertNotIn("[x](", json.loads(out)["runs"][0]["results"][0]["message"]["text"])

    def test_outputs_at_fault(self):
        path = self.put("größe", GOOD)
        with open("/dev/full", "wb") as full:
            began = subprocess.run(
                [sys.executable, "-m", "storklocker.scanning.command", "scan", path],
                env={**os.environ, "PYTHONPATH": str(IMPORTED_FROM)},
                stdout=full,
                stderr=subprocess.PIPE,
            )
        self.assertEqual(began.returncode, 2)
        self.assertNotIn(b"Traceback", began.stderr)
        status, out, errors = told("learn", path, more={"PYTHONIOENCODING": "ascii"})
        self.assertEqual((status, errors), (0, ""))
        self.assertIn("größe", out)

    def test_faults_of_a_list_name_it(self):
        path = self.put("no-list", b"\xff\xfe")
        for words in (("lint", path), ("scan", path, "--allow", path)):
            status, _, errors = told(*words)
            self.assertEqual(status, 2)
            self.assertIn("no-list", errors)
        for jobs in ("x", "-1", "1000", "1_0", ""):
            status, _, errors = told("scan", path, f"--jobs={jobs}")
            self.assertEqual(status, 2)
            self.assertIn("expected a number from 1 to 256", errors)


if __name__ == "__main__":
    unittest.main()

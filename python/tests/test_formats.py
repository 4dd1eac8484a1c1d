"""The reports of `storklocker scan`: each format, what a terminal shows, which files, how large."""

import contextlib
import io
import json
import os
import pty
import re
import subprocess
import sys
import unittest
import xml.etree.ElementTree as ET

import test_scanning
from common import IMPORTED_FROM, needs
from storklocker.scanning import condensing
from storklocker.scanning.command import command_parser
from storklocker.scanning.formats import table
from storklocker.scanning.html import FOUND, page
from storklocker.scanning.judging import Question, reports_of
from storklocker.scanning.report import Finding, Report
from storklocker.scanning.sarif import MOST as MOST_RESULTS
from storklocker.scanning.sarif import as_sarif
from storklocker.scanning.words import Word
from test_scanning import BAD, GOOD, npy, zipped

PARTIAL = b"cfunctools\npartial\n."
UNKNOWN = b"cshop.orders\nOrder\n."
FORMATS = ("table", "json", "sarif", "html", "junit")
MOST = 1 << 20
PLAIN = b"{'descr': '<f8', 'fortran_order': False, 'shape': (1,), }".ljust(69) + b"\n"
NUMBERS = b"\x93NUMPY\x01\x00\x46\x00" + PLAIN + bytes(8)


class Formats(unittest.TestCase):
    setUp, put = test_scanning.Scanning.setUp, test_scanning.Scanning.put
    run_command = test_scanning.Scanning.run_command

    def files(self):
        """A folder with a file of each severity."""
        (self.folder / "f" / "deep").mkdir(parents=True)
        self.put("f/bad", BAD)
        self.put("f/partial", PARTIAL)
        self.put("f/unknown", UNKNOWN)
        self.put("f/good", GOOD)
        self.put("f/cut.npy", npy(GOOD[:30]))
        self.put("f/text.py", b"config = 1\n")
        self.put("f/deep/bad.bin", zipped(("a]]><b", BAD)))
        return str(self.folder / "f")

    def test_statuses(self):
        self.files()
        by_default = {"bad": 1, "partial": 1, "unknown": 1, "good": 0, "cut.npy": 2}
        for name, status in by_default.items():
            self.assertEqual(self.run_command("scan", self.folder / "f" / name)[0], status)
        order = ("never", "refused", "danger", "warning", "unknown", "note")
        for name, first in (("bad", 2), ("partial", 3), ("unknown", 4), ("good", 6)):
            for place, word in enumerate(order):
                words = ("scan", self.folder / "f" / name, "--fail-on", word)
                self.assertEqual(self.run_command(*words)[0], int(place >= first), words)
        both = ("scan", self.folder / "f" / "bad", self.folder / "f" / "cut.npy")
        self.assertEqual(self.run_command(*both)[0], 1)
        self.assertEqual(self.run_command(*both, "--fail-on", "never")[0], 2)

    def test_help_has_the_statuses(self):
        for words in (["--help"], ["scan", "--help"]):
            out = io.StringIO()
            with self.assertRaises(SystemExit), contextlib.redirect_stdout(out):
                command_parser().parse_args(words)
            for line in ("exit status:", "  0  ", "  1  ", "  2  ", "  130  ", "never    no "):
                self.assertIn(line, out.getvalue())

    def test_junit(self):
        _, out = self.run_command("scan", self.files(), "--format", "junit")
        suite = ET.fromstring(out.encode())[0]
        cases = {case.get("name").rpartition("/f/")[2]: case for case in suite}
        self.assertEqual(len(cases), int(suite.get("tests")))
        self.assertEqual((suite.get("failures"), suite.get("errors")), ("4", "1"))
        self.assertEqual(cases["bad"][0].tag, "failure")
        self.assertIn("posix.system", cases["bad"][0].get("message"))
        self.assertEqual(cases["cut.npy"][0].tag, "error")
        self.assertEqual(cases["partial"][0].tag, "failure")
        self.assertEqual(list(cases["good"]), [])
        self.assertEqual(cases["deep/bad.bin!a]]><b"][0].tag, "failure")
        _, out = self.run_command("scan", self.folder / "f", "--format", "junit",
                                  "--fail-on", "danger")
        suite = ET.fromstring(out.encode())[0]
        self.assertEqual(suite.get("failures"), "2")
        self.assertEqual(len(suite.findall("testcase/system-out")), 2)

    def test_sarif(self):
        _, out = self.run_command("scan", self.files(), "--format", "sarif")
        run = json.loads(out)["runs"][0]
        levels = {result["ruleId"]: result["level"] for result in run["results"]}
        self.assertEqual(levels, {
            "dangerous-import": "error", "risky-import": "warning", "unknown-import": "warning",
            "broken-pickle": "warning",
        })
        rules = {rule["id"] for rule in run["tool"]["driver"]["rules"]}
        self.assertLess(set(levels), rules)
        self.assertEqual(json.loads(self.run_command(
            "scan", self.folder / "f" / "good", "--format", "sarif")[1])["runs"][0]["results"], [])

    def test_a_lone_file_is_always_named(self):
        for name, data, wanted in (
            ("a.npy", NUMBERS, "  npy  numbers only\n"),
            ("a.txt", b"A text\n", "  file  text\n"), ("none", b"", "  file  empty\n"),
            ("z.zip", zipped(*((f"{number}", b"text") for number in range(50))), "30 more without"),
        ):
            _, out = self.run_command("scan", self.put(name, data))
            self.assertIn(name, out)
            self.assertIn(wanted, out)

    def test_include_and_exclude(self):
        folder = self.files()
        words = ("scan", folder, "--format", "json")
        for more, names in (
            (("--include", "*.py"), ["text.py"]),
            (("--exclude", "bad*", "--exclude", "cut*"), ["good", "partial", "text.py", "unknown"]),
            (("--exclude", "deep", "--include", "*bad*"), ["bad"]),
            (("--include", "*/deep/*"), ["deep/bad.bin"]),
        ):
            with contextlib.redirect_stderr(io.StringIO()) as errors:
                _, out = self.run_command(*words, *more)
            found = [it["file"][len(folder) + 1 :] for it in json.loads(out)]
            self.assertEqual(found, names, more)
            self.assertIn("left out by --include and --exclude", errors.getvalue())
        lone = ("scan", self.folder / "f" / "bad", "--exclude", "*")
        self.assertEqual(self.run_command(*lone)[0], 1)


class Sarif(unittest.TestCase):
    """What Code scanning takes, beside what the tests against SARIF's schema look at."""

    def log(self, reports):
        return json.loads("".join(as_sarif(reports, "0.1.0")))["runs"][0]

    def test_the_worst_results_stay(self):
        kinds = ["unknown-import"] * MOST_RESULTS + ["dangerous-import"] * 3 + ["dangling-link"] * 2
        reports = [
            Report(f"f{number}", "pickle", Word.UNKNOWN, findings=(Finding(kind, "w"),),
                   file=f"f{number}")
            for number, kind in enumerate(kinds)
        ]
        run = self.log(reports)
        found = [it["ruleId"] for it in run["results"]]
        self.assertEqual(len(found), MOST_RESULTS)
        self.assertEqual(found[:4], ["dangerous-import"] * 3 + ["unknown-import"])
        told = run["invocations"][0]["toolExecutionNotifications"][0]["message"]["text"]
        self.assertEqual(told, "5 more results are left out: --format json has them")
        prints = {it["partialFingerprints"]["primaryLocationLineHash"] for it in run["results"]}
        self.assertEqual(len(prints), MOST_RESULTS)

    def test_where_files_are(self):
        found = Finding("dangling-link", "w")
        for path, wanted in (
            ("./a b/c", "a%20b/c"), (os.path.abspath("d/e"), "d/e"), ("f/../g", "g"),
            ("a:b", "a%3Ab"), ("/nowhere/h", "file:///nowhere/h"), ("s3://i/j", "s3://i/j"),
            ("\udcff", "%FF"),
        ):
            (it,) = self.log([Report(path, "file", Word.NO_PICKLE, findings=(found,), file=path)])[
                "results"]
            place = it["locations"][0]["physicalLocation"]["artifactLocation"]
            self.assertEqual(place["uri"], wanted)
            self.assertEqual("uriBaseId" in place, "://" not in wanted)


class Terminals(unittest.TestCase):
    setUp, put, files = test_scanning.Scanning.setUp, test_scanning.Scanning.put, Formats.files

    def shown(self, *words):
        """What a terminal shows of the errors and the progress."""
        ours, its = pty.openpty()
        command = [sys.executable, "-m", "storklocker.scanning.command", *map(str, words)]
        environment = {**os.environ, "PYTHONPATH": str(IMPORTED_FROM)}
        ran = subprocess.Popen(command, stdout=subprocess.DEVNULL, stderr=its, env=environment)
        os.close(its)
        text = b""
        with contextlib.suppress(OSError):
            while True:
                text += os.read(ours, 4096)
        ran.wait()
        os.close(ours)
        return text.decode()

    @needs("/dev/pts/ptmx")
    def test_the_last_line(self):
        folder = self.files()
        last = self.shown("scan", folder).strip().splitlines()[-1]
        self.assertIn("2 dangerous, 1 unreadable, 1 with warnings", last)
        self.assertIn(f"in 5 of 7 files, most in {folder} (4)", last)
        more = last.partition("each: ")[2].partition(" >")[0]
        self.assertEqual(more, f"storklocker scan {folder} --format html")
        last = self.shown("scan", self.folder / "f" / "good").strip().splitlines()[-1]
        self.assertEqual(last, "nothing was found in 1 file")

    @needs("/dev/pts/ptmx")
    def test_notes(self):
        folder = self.folder / "notes"
        folder.mkdir()
        (folder / "a").write_bytes(b"\x80\x04cnobody\nknows\n.")
        last = self.shown("scan", folder).strip().splitlines()[-1]
        self.assertIn("1 with names that nobody has judged: in 1 of 1 file, all in", last)
        (folder / "link").symlink_to("nowhere")
        last = self.shown("scan", folder).strip().splitlines()[-1]
        self.assertIn("judged, 1 with notes: in 2 of 2 files, all in", last)

    def test_the_table_says_what_to_do_about_unknown_names(self):
        for data, is_told in ((UNKNOWN, True), (GOOD, False), (BAD, False)):
            _, *told, _ = table(reports_of("x", io.BytesIO(data), Question()))
            self.assertEqual(any("`storklocker learn`" in line for line in told), is_told, data)


class Looks(unittest.TestCase):
    def test_the_worst_finding_is_counted(self):
        """Without a list, what runs code in front of a fault is dangerous, not only unreadable."""
        ran = b"\x80\x04cos\nsystem\n."
        for data in (ran, ran[:-1] + b"N.", ran[:-1] + b"\xff"):
            *_, totals = table(reports_of("x", io.BytesIO(data), Question()))
            self.assertEqual(totals, "1 dangerous", data)

    def test_many_names_are_folded(self):
        for count in (8, 9, 50):
            data = b"\x80\x04" + b"".join(b"cm%d\nn\n0" % it for it in range(count)) + b"N."
            text = "".join(page(reports_of("x", io.BytesIO(data), Question()), "1"))
            self.assertEqual("more lines</summary>" in text, count > 8)
            for number in range(count):
                self.assertIn(f"<li><code>m{number}.n</code>", text)


class Sizes(unittest.TestCase):
    """No file of at most a megabyte gives a report of more than one."""

    setUp, put = test_scanning.Scanning.setUp, test_scanning.Scanning.put
    run_command = test_scanning.Scanning.run_command

    def sizes(self, data):
        path = self.put("file", data)
        return {it: len(self.run_command("scan", path, "--format", it)[1]) for it in FORMATS}

    def test_names(self):
        text = b"X" + (300_000).to_bytes(4, "little") + "\U0001f600".encode() * 75_000
        long = b"\x80\x02" + text + b"q\x000"
        for number in range(500):
            short = b"%d" % number
            long += b"h\x00X" + len(short).to_bytes(4, "little") + short + b"\x930"
        many = b"".join(b"c%x\n&'\"<\n0" % number for number in range(60_000))
        for data in (long + b"N.", many + b"N."):
            for form, size in self.sizes(data).items():
                self.assertLess(size, MOST, form)

    def test_members(self):
        for data in (BAD, b"text", UNKNOWN, GOOD[:20]):
            made = zipped(*((f"{number}", data) for number in range(3000)))
            for form, size in self.sizes(made).items():
                self.assertLess(size, MOST, (form, data))

    def test_a_page_has_a_bound_too(self):
        found = Finding("unknown-import", "w", "a.b")
        reports = [Report("f", "pickle", "unjudged", findings=(found,), file="f")] * (FOUND + 9)
        rows = "".join(page([*reports, *[Report("g", "file", Word.NO_PICKLE, file="g")] * 9], "0"))
        self.assertEqual(rows.count("<tr data-"), FOUND + 9)
        self.assertIn("9 more are left out", rows)

    def test_what_there_is_no_room_for_is_counted(self):
        reports = [
            Report("f!x", "pickle", "unreadable", "w" * 900, findings=(
                Finding("broken-pickle", "w" * 900), Finding("dangerous-import", "w", "n")),
                file="f")
            for _ in range(2000)
        ]
        quiet = [Report("f!y", "pickle", Word.NO_PICKLE, file="f")] * 2000
        kept = list(condensing.condensed([*quiet, *reports]))
        last = kept[-1]
        self.assertLess(len(kept), 2000)
        self.assertEqual(last.status, "unreadable")
        kinds = [finding.kind for finding in last.findings]
        self.assertEqual(kinds, ["dangerous-import", "broken-pickle"])
        counts = sum(map(int, re.findall(r"([\d]+) (?:unreadable|no)", last.why.replace(",", ""))))
        self.assertEqual(counts + len(kept) - 1, 4000)


if __name__ == "__main__":
    unittest.main()

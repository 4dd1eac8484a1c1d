"""The options of `storklocker scan` that say what is read, what counts and what is shown."""

import contextlib
import errno
import io
import json
import os
import pty
import re
import subprocess
import sys
import unittest
from pathlib import Path

import test_scanning
from common import IMPORTED_FROM, needs
from storklocker.scanning.colour import paint_for
from storklocker.scanning.command import main
from storklocker.scanning.showing import FORMATS
from test_scanning import BAD, GOOD, zipped

PARTIAL = b"cfunctools\npartial\n."
OWN = b"cshop.orders\nOrder\n."
COLOUR = "\x1b["


class Options(unittest.TestCase):
    """Each test has a folder, which is the current one."""

    def setUp(self):
        test_scanning.Scanning.setUp(self)
        before = os.getcwd()
        self.addCleanup(os.chdir, before)
        os.chdir(self.folder)

    def put(self, name, data):
        path = self.folder / name
        path.parent.mkdir(parents=True, exist_ok=True)
        path.write_bytes(data if isinstance(data, bytes) else data.encode())
        return name

    def ran(self, *words):
        """The status, what is written, and what is said of errors."""
        out, errors = io.StringIO(), io.StringIO()
        with contextlib.redirect_stdout(out), contextlib.redirect_stderr(errors):
            status = main([str(word) for word in words])
        return status, out.getvalue(), errors.getvalue()

    def shown(self, *words, **environment):
        """The lines that a terminal shows."""
        ours, its = pty.openpty()
        command = [sys.executable, "-m", "storklocker", *map(str, words)]
        around = {**os.environ, "PYTHONPATH": str(IMPORTED_FROM), "TERM": "xterm", **environment}
        ran = subprocess.Popen(command, stdout=its, stderr=its, env=around)
        os.close(its)
        text = b""
        try:
            while True:
                got = os.read(ours, 4096)
                if not got:
                    break
                text += got
        except OSError as error:
            self.assertEqual(error.errno, errno.EIO)
        ran.wait()
        os.close(ours)
        lines = text.decode().replace("\r\n", "\n").rstrip("\n").split("\n")
        return ran.returncode, [re.sub(".*\r", "", line) for line in lines]


@needs("/dev/pts/ptmx")
class Terminal(Options):
    """The verdict, the findings alone, and one line of counts."""

    def test_a_folder(self):
        for name, data in (("bad", BAD), ("part", PARTIAL), ("good", GOOD), ("text", b"A text\n")):
            self.put(f"f/{name}", data)
        status, (first, *lines, last) = self.shown("scan", "f", NO_COLOR="1")
        self.assertEqual((status, first), (1, "Don't load the dangerous files: they run code"))
        self.assertEqual([it.split()[1] for it in lines if it[:1] != " "], ["f/bad", "f/part"])
        self.assertIn("1 dangerous, 1 with warnings: in 2 of 4 files", last)
        _, plain, _ = self.ran("scan", "f")
        self.assertIn("f/good", plain)
        self.assertNotIn("Don't load", plain)

    def test_each_verdict(self):
        for data, allow, wanted in (
            (BAD, "list.toml", "Don't load the refused files"),
            (GOOD, "list.toml", "A guard with this list loads these files"),
            (GOOD, "", "No name known to run code was found; no list has judged these files"),
            (PARTIAL, "", "No name known to run code was found, but some names do more"),
            (b"\x80\x04]]", "", "Don't load the unreadable files: they could not be read"),
            (b"A text\n", "", "No pickle was found"),
        ):
            words = ("--allow", allow) if allow else ()
            _, lines = self.shown("scan", self.put("one", data), *words, NO_COLOR="1")
            self.assertTrue(lines[0].startswith(wanted), lines)

    def test_colours(self):
        self.put("bad", BAD)
        for words, environment, is_coloured in (
            ((), {}, True), ((), {"NO_COLOR": "1"}, False), ((), {"NO_COLOR": ""}, True),
            (("--color", "always"), {"NO_COLOR": "1"}, True), (("--color", "never"), {}, False),
            ((), {"TERM": "dumb"}, False),
        ):
            environment = {"NO_COLOR": "", **environment}
            _, lines = self.shown("scan", "bad", *words, **environment)
            self.assertEqual(COLOUR in "".join(lines), is_coloured, (words, environment))


class Showing(Options):
    def test_a_pipe_has_no_colours(self):
        self.put("bad", BAD)
        for form in FORMATS:
            self.assertNotIn(COLOUR, self.ran("scan", "bad", "--format", form)[1])
        self.assertIn(COLOUR, self.ran("scan", "bad", "--color", "always")[1])
        plain = re.sub("\x1b\\[[0-9;]*m", "", self.ran("scan", "bad", "--color", "always")[1])
        self.assertEqual(plain, self.ran("scan", "bad")[1])
        self.assertEqual(paint_for("auto", io.StringIO())("text", "danger"), "text")

    def test_show(self):
        for name, data in (("bad", BAD), ("part", PARTIAL), ("own", OWN), ("text", b"A text\n")):
            self.put(f"f/{name}", data)
        for least, names in (
            ("danger", ["bad"]), ("warning", ["bad", "part"]), ("unknown", ["bad", "own", "part"]),
            ("note", ["bad", "own", "part"]), ("all", ["bad", "own", "part", "text"]),
        ):
            status, out, _ = self.ran("scan", "f", "--show", least)
            found = re.findall(r"(?m)^\w.*?  f/(\w+)  ", out)
            self.assertEqual((status, found), (1, names))
            _, out, _ = self.ran("scan", "f", "--show", least, "--format", "json")
            self.assertEqual([it["path"][2:] for it in json.loads(out)], names)

    def test_quiet(self):
        self.put("bad", BAD)
        self.put("deep/er/good", GOOD)
        for form in FORMATS:
            self.assertEqual(self.ran("scan", "bad", "-q", "--format", form), (1, "", ""))
        self.assertEqual(self.ran("scan", "deep", "--quiet", "--no-recursive"), (2, "", ""))
        status, out, errors = self.ran("scan", "-q", "bad", "--allow", "nowhere")
        self.assertEqual((status, out), (2, ""))
        self.assertIn("nowhere", errors)

    def test_what_is_unrecognized_is_told_where_it_counts(self):
        self.put("f/x", bytes(range(1, 256)) * 12)
        for form in FORMATS:
            words = ("scan", "f", "--format", form)
            self.assertEqual(self.ran(*words)[0], 0)
            status, out, _ = self.ran(*words, "--fail-on", "unrecognized")
            self.assertEqual(status, 1)
            self.assertIn("no reader recognizes it", out.lower(), form)
        self.put("known", self.ran("scan", "f", "--fail-on", "unrecognized", "--format", "json")[1])
        words = ("scan", "f", "--fail-on", "unrecognized", "--baseline", "known")
        self.assertEqual(self.ran(*words)[0], 0)

    def test_ndjson(self):
        self.put("f/bad.zip", zipped(("a\n", BAD), ("b", GOOD)))
        self.put("f/good", GOOD)
        _, whole, _ = self.ran("scan", "f", "--format", "json")
        status, lines, _ = self.ran("scan", "f", "--format", "ndjson")
        found = list(map(json.loads, lines.splitlines()))
        self.assertEqual((status, found), (1, json.loads(whole)))
        verdicts = [(os.path.basename(it["file"]), it["verdict"]) for it in found]
        self.assertEqual(verdicts, [("bad.zip", "dangerous")] * 2 + [("good", "unjudged")])
        (self.folder / "none").mkdir()
        self.assertEqual(self.ran("scan", "none", "--format", "ndjson"), (0, "", ""))

    def test_ndjson_is_streamed(self):
        os.mkfifo("pipe")
        self.put("a", GOOD)
        command = [sys.executable, "-m", "storklocker", "scan", "a", "pipe", "--format", "ndjson"]
        environment = {**os.environ, "PYTHONPATH": str(IMPORTED_FROM)}
        with subprocess.Popen(command, stdout=subprocess.PIPE, env=environment) as ran:
            first = json.loads(ran.stdout.readline())  # before the second file has a writer
            with open("pipe", "wb") as opened:
                opened.write(BAD)
            second = json.loads(ran.stdout.readline())
        self.assertEqual((first["path"], second["path"]), ("a", "pipe"))


class FilesFrom(Options):
    def test_lines_and_nuls(self):
        names = ["bad one", " x", "d/\u00e9", "-", "two\nlines"]
        for name in names:
            self.put(name, BAD if name == "bad one" else GOOD)
        for flag, end, kept in (((), "\n", names[:-1]), (("-0",), "\0", names),
                                (("--null",), "\0", names)):
            self.put("names", end.join(kept) + end)
            status, out, _ = self.ran("scan", "--files-from", "names", *flag, "--format", "json")
            found = [it["path"] for it in json.loads(out)]
            self.assertEqual((status, found), (1, [it if it != "-" else "./-" for it in kept]))

    def test_standard_input(self):
        self.put("bad", BAD)
        command = [sys.executable, "-m", "storklocker", "scan", "--files-from", "-"]
        environment = {**os.environ, "PYTHONPATH": str(IMPORTED_FROM)}
        for given, status in ((b"bad\n", 1), (b"bad", 1), (b"", 0), (b"nowhere\n", 2)):
            ran = subprocess.run(command, input=given, env=environment, capture_output=True)
            self.assertEqual(ran.returncode, status, ran)

    def test_together_with_paths(self):
        for name in ("a", "b"):
            self.put(name, GOOD)
        self.put("names", "b\n")
        _, out, _ = self.ran("scan", "a", "--files-from", "names", "--format", "json")
        self.assertEqual([it["path"] for it in json.loads(out)], ["a", "b"])
        self.assertEqual(self.ran("scan", "--files-from", "nowhere")[0], 2)


class Baseline(Options):
    def setUp(self):
        super().setUp()
        self.put("f/bad", BAD)
        self.put("f/cut.zip", zipped(("a", GOOD))[:-30])
        self.put("f/many.zip", zipped(("a", BAD), ("b", GOOD)))

    def kept(self, *words, form="json"):
        self.put("known", self.ran("scan", "f", "--format", form, *words)[1])
        return ("--baseline", "known")

    def test_known_findings_do_not_count(self):
        for form in ("json", "ndjson"):
            known = self.kept(form=form)
            for path in ("f", "./f", "f/bad", "f//bad"):
                status, out, _ = self.ran("scan", path, *known)
                self.assertEqual(status, 0, out)
                self.assertRegex(out, r"\d+ known findings are left out\n$")
                self.assertNotIn("dangerous", out)
        for form in FORMATS:
            self.assertEqual(self.ran("scan", "f", *known, "--format", form)[0], 0, form)
        for it in json.loads(self.ran("scan", "f", *known, "--format", "json")[1]):
            self.assertTrue(all(found["is_known"] for found in it["findings"]), it)

    def test_it_makes_itself_again(self):
        first = self.kept()
        again = self.ran("scan", "f", *first, "--format", "json")[1]
        self.put("again", again)
        self.assertEqual(self.ran("scan", "f", "--baseline", "again")[0], 0)

    def test_what_changed_counts_again(self):
        """So do another file, another member, and other bytes of what can't be read."""
        known = self.kept()
        for name, data, status in (
            ("f/bad", BAD + b"N.", 1), ("f/other", BAD, 1),
            ("f/many.zip", zipped(("c", BAD), ("b", GOOD)), 1),
            ("f/cut.zip", zipped(("a", GOOD))[:-29], 2),
        ):
            path = self.folder / name
            before = path.read_bytes() if path.exists() else None
            self.put(name, data)
            self.assertEqual(self.ran("scan", "f", *known)[0], status, name)
            if before is None:
                path.unlink()
            else:
                path.write_bytes(before)
            self.assertEqual(self.ran("scan", "f", *known)[0], 0, name)

    def test_another_list_counts_again(self):
        self.assertEqual(self.ran("scan", "f", *self.kept(), "--allow", "list.toml")[0], 1)
        listed = self.kept("--allow", "list.toml")
        self.assertEqual(self.ran("scan", "f", *listed, "--allow", "list.toml")[0], 0)

    def test_what_has_no_digest_counts(self):
        self.kept()
        reports = json.loads(Path("known").read_text())
        for it in reports:
            it["sha256"] = ""
        self.put("known", json.dumps(reports))
        self.assertEqual(self.ran("scan", "f", "--baseline", "known")[0], 1)

    def test_faults(self):
        for text in ("", "[", "{}", "[1]", '[{"path": "a"}]', "nothing", "[" * 99_999, "\xff"):
            status, out, errors = self.ran("scan", "f", "--baseline", self.put("known", text))
            if text:
                self.assertEqual((status, out), (2, ""), text[:9])
                self.assertIn("known isn't a report of `scan --format json`", errors)
            else:
                self.assertEqual(status, 1)

    @needs("/dev/pts/ptmx")
    def test_a_terminal_counts_them(self):
        _, lines = self.shown("scan", "f", *self.kept(), NO_COLOR="1")
        self.assertEqual(lines[0], "Nothing new was found")
        self.assertRegex(lines[-1], r"nothing was found in 3 files, but \d known findings")


class Dangers(Options):
    TABLE = "# ours\n\n[danger] It deletes orders.\nshop.orders.Order  Order('x')\nwarehouse.*\n"

    def test_they_count(self):
        self.put("own", OWN)
        self.put("store", b"cwarehouse.a.b\nC\n.")
        self.put("other", b"cshop.orders\nOther\n.")
        harm = ("--fail-on", "danger")
        table = (*harm, "--danger", self.put("table", self.TABLE))
        for name, status in (("own", 1), ("store", 1), ("other", 0)):
            self.assertEqual(self.ran("scan", name, *harm)[0], 0, name)
            found, out, _ = self.ran("scan", name, *table)
            self.assertEqual(found, status, out)
            if status:
                self.assertIn("It deletes orders.", out)
            for more in (("--jobs", "2"), ("--resume", f"resume-{name}"), ("--format", "json")):
                self.assertEqual(self.ran("scan", name, *table, *more)[0], status, more)
        self.assertEqual(self.ran("scan", "own", *harm)[0], 0, "a later scan remembers the table")
        resumed = self.ran("scan", "own", "--resume", "resume-own")
        self.assertEqual(resumed[0], 2, "the reports of another table were taken")

    def test_they_count_though_we_know_better(self):
        self.put("a", b"ccollections\nOrderedDict\n.")
        self.put("table", "[danger] Not here.\ncollections.OrderedDict\n")
        self.assertEqual(self.ran("scan", "a", "--danger", "table")[0], 1)

    def test_faults(self):
        self.put("own", OWN)
        for text, line in (
            ("shop.orders.Order\n", 1), ("[danger]\na.b\n", 1), ("[harmless]\na.b\n", 1),
            ("[danger] Bad.\na b\n", 2), ("[danger] Bad.\na.b\n[warning] No.\n", 3),
        ):
            status, out, errors = self.ran("scan", "own", "--danger", self.put("table", text))
            self.assertEqual((status, out), (2, ""), text)
            self.assertIn(f"table:{line}: expected `[danger] A sentence.`", errors)


if __name__ == "__main__":
    unittest.main()

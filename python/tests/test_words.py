"""One word for a file: every format of `storklocker scan` says the same."""

import contextlib
import datetime
import decimal
import html
import importlib
import io
import json
import os
import pickle
import re
import subprocess
import sys
import tempfile
import unittest
import xml.etree.ElementTree as ET
from pathlib import Path

from common import needs
from storklocker import AllowList, lists
from storklocker.scanning.command import main
from storklocker.scanning.report import VERSION, Finding, Report
from storklocker.scanning.severity import KINDS, SEVERITIES
from storklocker.scanning.words import HEADLINES, Word, headline_of, word_of

ROOT = Path(__file__).resolve().parents[2]
BAD = b"cposix\nsystem\n(S'touch pwned'\ntR."
FILES = {
    "bad": BAD,
    "bad and cut": b"\x80\x04" + BAD[:-1],
    "in a row": pickle.dumps([1, 2], 4) + BAD,
    "partial": b"cfunctools\npartial\n.",
    "unknown": b"cshop.orders\nOrder\n.",
    "good": pickle.dumps({"a": [1, 2.5]}, 4),
    "cut": pickle.dumps({"a": [1, 2.5]}, 4)[:-3],
    "keys": b"})" + b"2\x86" * 30 + b"Ns.",
    "text": b"A text.\n",
}
WORDS = {
    "": {
        "bad": "dangerous", "bad and cut": "dangerous", "in a row": "dangerous",
        "partial": "warning", "unknown": "unknown", "good": "unjudged", "cut": "unreadable",
        "keys": "warning", "text": "no pickle",
    },
    'version = 2\n[imports]\n"shop.orders" = ["Order"]\n': {
        "bad": "refused", "bad and cut": "refused", "in a row": "refused", "partial": "refused",
        "unknown": "accepted", "good": "accepted", "cut": "refused", "keys": "refused",
        "text": "no pickle",
    },
}


class OneWord(unittest.TestCase):
    def setUp(self):
        held = tempfile.TemporaryDirectory()
        self.addCleanup(held.cleanup)
        self.folder = Path(held.name)
        (self.folder / "files").mkdir()
        for name, data in FILES.items():
            (self.folder / "files" / name).write_bytes(data)

    def out(self, listed, form):
        words = ["scan", str(self.folder / "files"), "--format", form]
        if listed:
            path = self.folder / "list.toml"
            path.write_text(listed)
            words += ["--allow", str(path)]
        out = io.StringIO()
        with contextlib.redirect_stdout(out):
            main(words)
        return out.getvalue()

    def test_the_control_runs(self):
        """What is called dangerous is: its command runs."""
        inner = "import pickle, sys; pickle.loads(open(sys.argv[1], 'rb').read())"
        command = [sys.executable, "-c", inner, str(self.folder / "files" / "bad")]
        subprocess.run(command, cwd=str(self.folder), check=True, timeout=120)
        self.assertTrue((self.folder / "pwned").exists())

    def test_json(self):
        for listed, wanted in WORDS.items():
            found = json.loads(self.out(listed, "json"))
            self.assertEqual({os.path.basename(it["path"]): it["status"] for it in found}, wanted)

    def test_table(self):
        for listed, wanted in WORDS.items():
            lines = self.out(listed, "table").splitlines()
            for name, word in wanted.items():
                if word != "no pickle":
                    path = re.escape(str(self.folder / "files" / name))
                    told = [it for it in lines if re.match(f"{word} *{path}  ", it)]
                    self.assertEqual(len(told), 1, (name, word, lines))

    def test_html(self):
        for listed, wanted in WORDS.items():
            page = self.out(listed, "html")
            rows = re.findall("<tr data-worst='([^']*)'><td class='[^']*'>([^<]*)<td class=path>"
                              "([^<]*)<", page)
            found = {os.path.basename(html.unescape(path)): word for _, word, path in rows}
            self.assertEqual(found, wanted)
            self.assertEqual([one for one, _, _ in rows], [word for _, word, _ in rows])
            for word in set(wanted.values()):
                count = sum(it == word for it in wanted.values())
                button = f"<button data-worst='{word}' aria-pressed=false>{word} {count}<"
                self.assertIn(button, page)

    def test_sarif_and_junit(self):
        for listed, wanted in WORDS.items():
            for it in json.loads(self.out(listed, "sarif"))["runs"][0]["results"]:
                place = it["locations"][0]["physicalLocation"]["artifactLocation"]["uri"]
                name = os.path.basename(place).replace("%20", " ")
                self.assertEqual(it["properties"]["verdict"], wanted[name], it)
            cases = {os.path.basename(case.get("name")): case
                     for case in ET.fromstring(self.out(listed, "junit").encode())[0]}
            for name, word in wanted.items():
                for told in cases[name]:
                    text = told.get("message") or told.text
                    self.assertTrue(text.startswith(f"{word}: "), (name, text))

    def test_each_status_has_each_word(self):
        """No finding makes a word better, and what is unread is never accepted."""
        order = list(Word)
        for status in Word:
            self.assertIs(word_of(status, ()), status)
            for severity in SEVERITIES:
                word = word_of(status, (severity,))
                self.assertLessEqual(order.index(word), order.index(status), (status, severity))
        for status in (Word.ACCEPTED, Word.UNJUDGED, Word.UNDECIDED):
            self.assertIs(word_of(status, ("unreadable",)), Word.UNREADABLE)

    def test_headlines(self):
        for severity in SEVERITIES:
            self.assertEqual(headline_of((severity,), (Word.ACCEPTED,)), severity)
        calm = (Word.UNJUDGED, Word.ACCEPTED, Word.NO_PICKLE)
        for word in calm:
            self.assertEqual(headline_of((), (word, Word.NO_PICKLE)), word)
        self.assertEqual(headline_of((), ()), "no pickle")
        self.assertEqual(set(HEADLINES), {*SEVERITIES, *calm})

    @unittest.skipUnless((ROOT / "docs" / "SCANNING.md").exists(), "there are no documents")
    def test_the_document_defines_each_word(self):
        text = (ROOT / "docs" / "SCANNING.md").read_text(encoding="utf-8")
        defined = re.findall(r"(?m)^\| ([a-z ]+) \| ", text.partition("One word")[2])
        self.assertEqual(defined, [word.value for word in Word])


SCHEMA = ROOT / "docs" / "report.schema.json"


@unittest.skipUnless(SCHEMA.exists(), "there are no documents")
class Schema(unittest.TestCase):
    setUp, out = OneWord.setUp, OneWord.out

    def test_it_has_each_word(self):
        held = json.loads(SCHEMA.read_text(encoding="utf-8"))["$defs"]
        report, finding = held["report"]["properties"], held["finding"]["properties"]
        self.assertEqual(report["status"]["enum"], [word.value for word in Word])
        self.assertEqual(report["version"]["const"], VERSION)
        told = [it for it in Report._fields if it != "explained"]  # (which JSON lacks)
        self.assertEqual(list(report), ["version", *told])
        self.assertEqual(finding["severity"]["enum"], list(SEVERITIES))
        self.assertEqual(finding["kind"]["enum"], list(KINDS))
        self.assertEqual(set(finding), {"severity", *Finding._fields})

    @needs("module:jsonschema")
    def test_reports_follow_it(self):
        jsonschema = importlib.import_module("jsonschema")
        if not hasattr(jsonschema, "Draft202012Validator"):
            self.skipTest("this jsonschema is older than the schema's draft")
        judge = jsonschema.Draft202012Validator(json.loads(SCHEMA.read_text(encoding="utf-8")))
        for listed in WORDS:
            found = json.loads(self.out(listed, "json"))
            judge.validate(found)
            self.assertTrue(judge.is_valid([]))
            for name in found[0]:
                for other in ({}, {name: ["other"]}):
                    changed = {**{it: found[0][it] for it in found[0] if it != name}, **other}
                    self.assertFalse(judge.is_valid([changed]), (name, other))


class Lists(unittest.TestCase):
    """`--allow` takes several lists, and shipped ones."""

    def setUp(self):
        held = tempfile.TemporaryDirectory()
        self.addCleanup(held.cleanup)
        self.folder = Path(held.name)
        data = pickle.dumps([datetime.date(2020, 1, 1), decimal.Decimal(1)], 4)
        (self.folder / "a.pickle").write_bytes(data)
        (self.folder / "own.toml").write_text('version = 2\n[imports]\ndatetime = ["date"]\n')
        (self.folder / "none.toml").write_text("version = 2\n[imports]\n[limits]\nstack = 2\n")

    def status(self, *given):
        words = [word for one in given for word in ("--allow", one)]
        path = str(self.folder / "a.pickle")
        with contextlib.redirect_stdout(io.StringIO()):
            with contextlib.redirect_stderr(io.StringIO()) as errors:
                found = [main([command, path, *words]) for command in ("scan", "check")]
        self.assertEqual(found[0], found[1], given)
        return found[0], errors.getvalue()

    def test_unions(self):
        own, none = str(self.folder / "own.toml"), str(self.folder / "none.toml")
        for given, wanted in (
            ((own,), 1), (("@decimal",), 1), ((own, "@decimal"), 0), (("@datetime,@decimal",), 0),
            (("@datetime", "@decimal"), 0), (("@scikit-learn,@uuid",), 1),
            ((none, "@datetime,@decimal"), 1),  # limits apply to all
        ):
            self.assertEqual(self.status(*given)[0], wanted, given)
        status, told = self.status("@nowhere")
        self.assertEqual(status, 2)
        self.assertIn("@nowhere isn't one of the lists @celery, ", told)

    def told(self, *words):
        """The status of a command, and what it prints."""
        out = io.StringIO()
        with contextlib.redirect_stdout(out), contextlib.redirect_stderr(io.StringIO()):
            return main(list(words)), out.getvalue()

    def test_every_command_takes_shipped_lists(self):
        both = AllowList.shipped("torch", "pandas")
        status, out = self.told("list", "show", "@torch,@pandas")
        self.assertEqual((status, AllowList.from_text(out)), (0, both))
        self.assertRegex(out, "# .*tested with torch 1(.*\n)*# .* pandas 1")
        self.assertEqual(self.told("list", "show"), (0, "\n".join(lists.words()) + "\n"))
        for words in (("show", "@torch,@nowhere"), ("diff", "@torch", "@nowhere")):
            self.assertEqual(self.told("list", *words), (2, ""))
        self.assertEqual(self.told("list", "diff", "@torch", "@torch-tensors"), (0, ""))
        self.assertIn("+ pandas._libs.missing.NA\n",
                      self.told("list", "diff", "@torch", "@torch,@pandas")[1])
        self.assertIn("\n0 dangerous, 0 warnings, 0 not judged\n", self.told("lint", "@pandas")[1])


if __name__ == "__main__":
    unittest.main()

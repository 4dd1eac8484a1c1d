"""The calls of dangerous names in a report: what CPython's readers call, with these arguments."""

import builtins
import io
import json
import os
import pickle
import pickletools
import subprocess
import time
import unittest
import unittest.mock

import test_scanning
from storklocker.scanning.calls import LENGTH, MOST
from storklocker.scanning.judging import Question, reports_of


class Called:
    """Pickles as a call."""

    def __init__(self, function, *words):
        self.call = (function, words)

    def __reduce__(self):
        return self.call


def calls_in(data):
    """The calls that the report on a pickle has, by their names."""
    found = {}
    for finding in next(reports_of("x", io.BytesIO(data), Question())).findings:
        for call in finding.calls:
            found.setdefault(finding.name, []).append(call)
    return found


def ran(data):
    """What a pickle gives to os.system in the readers of CPython."""
    found = []
    for load in (pickle.loads, pickle._loads):
        with unittest.mock.patch("os.system", lambda *words: found.append(words)):
            try:
                load(data)
            except Exception:
                pass
    return found


class Calls(unittest.TestCase):
    def test_instructions_that_lack_what_they_take(self):
        """The walk ends there, and the calls before are told."""
        for it in pickletools.opcodes:
            for front in (b"", b"N", b"(", b"(N"):
                data = b"cos\nsystem\n(S'x'\ntR0" + front + it.code.encode("latin-1")
                with self.subTest(name=it.name, front=front):
                    self.assertEqual(calls_in(data), {"os.system": ["os.system(\"x\")"]})

    setUp, put = test_scanning.Scanning.setUp, test_scanning.Scanning.put
    run_command = test_scanning.Scanning.run_command

    def test_every_protocol(self):
        wanted = {
            "subprocess.Popen": ['subprocess.Popen(["sh", "-c", "id"], -1)'],
            "builtins.exec": ['builtins.exec("a=\\"\\\\\\u000a", {"b": (1, (2.5, None, True))})'],
            f"{os.system.__module__}.system": [f'{os.system.__module__}.system("id")'],
        }
        for protocol in range(pickle.HIGHEST_PROTOCOL + 1):
            data = pickle.dumps([
                Called(subprocess.Popen, ["sh", "-c", "id"], -1),
                Called(builtins.exec, 'a="\\\n', {"b": (1, (2.5, None, True))}),
                Called(os.system, "id"),
            ], protocol)
            self.assertEqual(calls_in(data), wanted, protocol)

    def test_every_instruction(self):
        """What the readers are seen to call is told: the control runs it."""
        for data, wanted in (
            (b"cos\nsystem\n(Vecho a\ntR.", '"echo a"'),
            (b"(S'echo a'\nios\nsystem\n.", '"echo a"'),
            (b"(cos\nsystem\nS'echo a'\no.", '"echo a"'),
            (b"\x80\x02U\x06echo a\x85q\x010cos\nsystem\nh\x01R.", '"echo a"'),
            (b"\x80\x04\x8c\x02os\x94\x8c\x06system\x94\x93h\x00h\x01\x86R.", '"os", "system"'),
            (b"cos\nsystem\n]q\0\x85h\0S'late'\na0R.", '["late"]'),
            (b"cos\nsystem\n(I1\n(L2L\nttR.", "1, (2,)"),
            (b"I1_0\n0cos\nsystem\n(S'behind a fault'\ntR.", '"behind a fault"'),
            (b"cos\nsystem\n(S'cut'\ntR", '"cut"'),
            (b"\x80\x03cos\nsystem\nC\x02\xff\n\x85R.", r"b'\xff\n'"),
            (b"cos\nsystem\n)R.", ""),
        ):
            self.assertTrue(ran(data), data)
            self.assertEqual(calls_in(data)["os.system"], [f"os.system({wanted})"], data)

    def test_new_objects(self):
        for data, wanted in (
            (b"\x80\x02csubprocess\nPopen\nX\x01\0\0\0a\x85\x81.", '"a"'),
            (b"\x80\x04csubprocess\nPopen\n)}\x8c\x01kK\x01s\x92.", '**{"k": 1}'),
        ):
            found = calls_in(data)["subprocess.Popen"]
            self.assertEqual(found, [f"subprocess.Popen({wanted})"])

    def test_what_is_computed(self):
        data = b"cbuiltins\ngetattr\n(cimportlib\nimport_module\n(S'os'\ntRS'system'\ntR(S'id'\ntR."
        got = 'builtins.getattr(importlib.import_module("os"), "system")'
        self.assertEqual(calls_in(data)["builtins.getattr"], [got, f'{got}("id")'])
        found = calls_in(b"cfunctools\npartial\n(cos\nsystem\nS'x'\ntR.")
        self.assertEqual(found, {"os.system": ['functools.partial(os.system, "x")']})

    def test_rows_and_decoys(self):
        row = b"".join(b"cos\nsystem\n(S'%d'\ntR." % number for number in range(MOST + 3))
        *first, more = calls_in(row)["os.system"]
        self.assertEqual(first, [f'os.system("{number}")' for number in range(MOST)])
        self.assertEqual(more, "and 3 more calls")

    def test_they_are_short_and_printable(self):
        marks = "a\u202e\u2066\x1b[31m\0\x7f\n"
        for text in (marks, "x" * 5000, '"' * 199, "\ud800\U000e0001" * 99):
            raw = text.encode("utf-16", "replace")
            for number in (0, 2, 4):
                for value in (text, [text], {text: text}, (text, (text,)), raw):
                    (call,) = calls_in(pickle.dumps(Called(os.system, value), number)).popitem()[1]
                    self.assertLessEqual(len(call), LENGTH)
                    self.assertTrue(call.isprintable(), call)
                    self.assertTrue(call.startswith(f"{os.system.__module__}.system("), call)

    def test_what_is_shared_costs_little(self):
        for data in (
            b"N" + b"2\x86" * 20_000 + b"R.",
            b"]" + b"q\0h\0a" * 10_000 + b"\x85R.",
            b"q\0(" + b"N" * 30_000 + b"tq\1" + b"h\0h\1R0" * 90_000 + b"N.",
            b")R" * 400_000 + b".",
        ):
            began = time.process_time()
            self.assertTrue(calls_in(b"cos\nsystem\n" + data), data[:10])
            self.assertLess(time.process_time() - began, 5)  # it takes half a second

    def test_every_format_has_them(self):
        path = self.put("bad", b"cos\nsystem\n(Vtouch \\u202e\n<b>\"'&\ntR.".replace(b"\n<", b"<"))
        for form in ("table", "html", "sarif", "junit", "json"):
            _, out = self.run_command("scan", path, "--format", form)
            self.assertIn("touch", out, form)
            self.assertNotIn("\u202e", out)
            self.assertNotIn("<b>", out if form in ("html", "junit") else "")
        self.assertEqual(
            json.loads(out)[0]["findings"][0]["calls"], ['os.system("touch \\u202e<b>\\"\'&")']
        )


if __name__ == "__main__":
    unittest.main()

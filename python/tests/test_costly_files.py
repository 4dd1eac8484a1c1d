"""What `storklocker scan` and `check` say of files that cost their reader too much, or that change
what they import.
"""

import contextlib
import importlib
import io
import pickle
import tempfile
import unittest
import zipfile
from pathlib import Path

import storklocker
from common import needs
from storklocker import AllowList
from storklocker.scanning import rows
from storklocker.scanning.command import main
from storklocker.scanning.judging import Question, reports_of

ATTACK = b"})" + b"2\x86" * 30 + b"Ns."
DEEP = b"})" + b"\x85" * 5_000 + b"Ns."
CHANGE = b"\x80\x04ccollections\nOrderedDict\n}\x8c\x01aNsb."
LISTED = AllowList([("collections", "OrderedDict")])
LOOKS = ("exceeded", "exceeded_in_row")
KINDS = ("costly-keys", "changed-import")
FOUND = {
    "attack": (ATTACK, "costly-keys", "byte 63 weighs more than the limit weight, 1,000,000"),
    "deep tuple": (DEEP, "costly-keys", "at byte 5,003 has more levels than the limit levels"),
    "BUILD": (CHANGE, "changed-import", "BUILD would change an imported object"),
    "claimed": (b"\x80\x04" + ATTACK, "costly-keys", "the key at byte 65"),
    "cut": (ATTACK[:-1], "costly-keys", "the key at byte 63"),
    "broken": (b"\x80\x04" + ATTACK[:-1] + b"\xff", "costly-keys", "the key at byte 65"),
    "left over": (b"\x80\x04N" + ATTACK, "costly-keys", "the key at byte 66"),
    "in a row": (b"N." * 3 + ATTACK + b"N.", "costly-keys", "in pickle 3, the key at byte 69"),
    "in a long row": (b"N." * 2_500 + ATTACK, "costly-keys", "in pickle 2500, the key at byte"),
    "behind an import": (
        b"cos\nsystem\n0" + ATTACK, "costly-keys", "the key at byte 75 weighs more"
    ),
}


def findings(data, allow=None, name="a.pickle"):
    reports = list(reports_of(name, io.BytesIO(data), Question(allow)))
    return [(it.kind, it.severity, it.why) for report in reports for it in report.findings]


def zipped(data):
    out = io.BytesIO()
    with zipfile.ZipFile(out, "w") as file:
        file.writestr("archive/data.pkl", data)
    return out.getvalue()


class Findings(unittest.TestCase):
    def test_each_is_a_warning(self):
        for allow in (None, LISTED):
            for what, (data, kind, why) in FOUND.items():
                for whole in (data, zipped(data)):
                    with self.subTest(what=what, allow=allow):
                        found = [it for it in findings(whole, allow) if it[0] == kind]
                        ((_, severity, said),) = found
                        self.assertEqual(severity, "warning")
                        self.assertIn(why, said)

    def test_a_list_with_limits_says_the_same(self):
        text = "version = 2\n[imports]\n[limits]\nstack = 1000\n"
        self.assertEqual(len(findings(ATTACK, AllowList.from_text(text))), 1)

    def test_the_bill(self):
        """Of a key of so many levels: one and the tuples, each of one object or of a pair."""
        for data, bill in (
            (ATTACK, "levels 31, weight 1,048,575+, work 1,048,575+"),
            (DEEP, "levels 1,023+, weight 5,001, work 5,001"),
            (b"})" + b"\x85" * 1_005 + b"Ns.", "levels 1,006, weight 1,006, work 1,006"),
        ):
            for whole in (data, b"N." * 3 + data):
                ((_, _, why),) = findings(whole)
                self.assertTrue(why.endswith(f"; bill: {bill}"), why)
                self.assertLessEqual(len(why), 200)
        ((_, _, why), *_) = findings(FOUND["broken"][0])[::-1]
        self.assertNotIn("bill", why)

    def test_a_list_that_limits_less_says_the_bill(self):
        front, data = "version = 2\n[imports]\n[limits]\n", b"})" + b"\x85" * 9 + b"Ns."
        for limit, reason in (("levels = 9", "DeepKey"), ("work = 9", "HeavyKeys")):
            ((kind, severity, why),) = findings(data, AllowList.from_text(f"{front}{limit}\n"))
            self.assertEqual((kind, severity), ("refused", "refused"))
            self.assertIn(f"no at 12: {reason} (", why)
            self.assertIn(", or [limits] of a list file, raises it", why)
            self.assertTrue(why.endswith("; bill: levels 10, weight 10, work 10"), why)
        self.assertEqual(findings(data, AllowList.from_text(f"{front}levels = 10\n")), [])

    def test_what_is_within_the_limits_is_none(self):
        for data in (
            b"})" + b"2\x86" * 18 + b"Ns.",
            b"})" + b"\x85" * 999 + b"Ns.",
            b"\x80\x04ccollections\nOrderedDict\n)R}\x8c\x01aNsb.",
            b"N." * 2_500,
        ):
            for allow in (None, LISTED):
                self.assertEqual(findings(data, allow), [])

    def test_without_the_look_they_are_none(self):
        """The control: nothing else in a scan finds them."""
        for name in LOOKS:
            self.addCleanup(setattr, rows, name, getattr(rows, name))
            setattr(rows, name, lambda data, names: None)
        for what, listed in (("attack", LISTED), ("deep tuple", LISTED), ("BUILD", None)):
            self.assertEqual(findings(FOUND[what][0], listed), [])

    def test_which_limit_is_passed(self):
        key = b"\x80\x04)" + b"2\x86" * 18 + b"\x940"
        for data, said in (
            (key + b"}(" + b"h\x00N" * 400 + b"u.", "all keys weigh more than the limit work"),
            (key + b"}h\x002\x86Ns.", "the key at byte 47 weighs more than the limit weight"),
        ):
            ((_, _, why),) = findings(data)
            self.assertIn(said, why)
            ((_, _, why),) = findings(data[:-1])[-1:]
            self.assertIn(said, why)

    def test_what_is_said_is_short(self):
        """However far in the file: a report cuts longer texts."""
        far = b"X" + (1 << 20).to_bytes(4, "little") + bytes(1 << 20)
        key = b")" + b"2\x86" * 18
        work = key + b"\x940}(" + b"h\x00N" * 400 + b"u."
        for attack in (ATTACK, DEEP, work):
            data = b"\x80\x04N." * 99_000 + b"\x80\x04" + far + b"0" + attack
            ((_, _, why),) = findings(data)
            self.assertIn("in pickle 99000, ", why)
            self.assertIn("; bill: ", why)
            self.assertLessEqual(len(why), 200)


class Rows(unittest.TestCase):
    """Small pickles are looked at many at once."""

    def looks(self, data):
        """The findings, and how many looks they took."""
        seen = []
        for name in LOOKS:
            look = getattr(rows, name)
            self.addCleanup(setattr, rows, name, look)
            setattr(rows, name, lambda *given, look=look: seen.append(given) or look(*given))
        return findings(data), len(seen)

    def test_a_look_at_many(self):
        small = b"".join(b"\x80\x04cm%d\nn%d\n." % (k, k) for k in range(8_000))
        _, looks = self.looks(small)
        self.assertLessEqual(looks, 8)
        self.addCleanup(setattr, rows, "_AT_ONCE", rows._AT_ONCE)
        rows._AT_ONCE = 0  # the control
        _, looks = self.looks(small)
        self.assertGreaterEqual(looks, 8_000)

    def test_a_large_one_is_looked_at_once(self):
        found, looks = self.looks(b"N." * 3 + pickle.dumps(["a" * 99] * 40_000, 4))
        self.assertEqual((found, looks), ([], 2))

    def test_one_among_many(self):
        """One that costs much has none of the others looked at one by one."""
        for attack in (ATTACK, DEEP):
            for behind in (b"", ATTACK, b"N." * 9_000 + ATTACK):
                found, looks = self.looks(b"N." * 30_000 + attack + behind)
                ((_, _, why),) = found
                self.assertIn("in pickle 30000, ", why)
                self.assertLessEqual(looks, 4)

    def test_behind_what_no_list_permits(self):
        """An import without a name, and one of more names than are taken from a pickle."""
        text = b"X" + (20_000).to_bytes(4, "little") + b"a" * 20_000
        many = b"\x80\x04" + text + b"\x94(" + b"h\x00h\x00\x93" * 5_000 + b"t0."
        for front in (b"\x80\x04\x8c\x02os\x8c\x00\x93.", many):
            found = findings(b"\x80\x04N." + front + b"\x80\x04" + ATTACK)
            ((_, _, why),) = [it for it in found if it[0] == "costly-keys"]
            self.assertIn("in pickle 2, ", why)

    def test_the_place_in_any_part(self):
        large = b"\x80\x04]" + b"N0" * 40_000 + b"."
        self.addCleanup(setattr, rows, "_AT_ONCE", rows._AT_ONCE)
        for rows._AT_ONCE in (0, 100, rows._AT_ONCE):
            for attack, at in ((ATTACK, 63), (DEEP, 5_003), (CHANGE, len(CHANGE) - 2)):
                for count in (0, 1, 9, 200):
                    for last in (b"", large, CHANGE, b"\xff"):
                        front = large * (count == 9)
                        front += b"".join(b"cm%d\nn\n." % k for k in range(count))
                        found = [it for it in findings(front + attack + last) if it[0] in KINDS]
                        with self.subTest(parts=rows._AT_ONCE, at=at, count=count, last=last[:9]):
                            ((_, _, why),) = found
                            self.assertIn(f"byte {len(front) + at:,}", why)
                            number = count + (count == 9)
                            self.assertEqual(why.startswith(f"in pickle {number}, "), number > 0)


class Command(unittest.TestCase):
    def setUp(self):
        folder = tempfile.TemporaryDirectory()
        self.addCleanup(folder.cleanup)
        self.folder = Path(folder.name)
        LISTED.to_file(self.folder / "list.toml")

    def ran(self, *words):
        out = io.StringIO()
        with contextlib.redirect_stdout(out):
            status = main([*words])
        return status, out.getvalue()

    def test_scan(self):
        path = self.folder / "a.pickle"
        path.write_bytes(ATTACK)
        listed = ("--allow", str(self.folder / "list.toml"))
        for words, status in (
            ((), 1), (("--fail-on", "warning"), 1), (listed, 1),
            ((*listed, "--fail-on", "warning"), 1), (("--fail-on", "danger"), 0),
        ):
            for form in ("table", "json", "sarif", "html", "junit"):
                found, said = self.ran("scan", str(path), *words, "--format", form)
                self.assertEqual(found, status, (words, form))
                self.assertIn("the limit weight, 1,000,000", said)

    def test_check_answers_as_a_guard_does(self):
        path, listed = self.folder / "a.pickle", str(self.folder / "list.toml")
        guard = storklocker.Guard(LISTED)
        for data in (ATTACK, DEEP, CHANGE, pickle.dumps({(1, 2): 3})):
            path.write_bytes(data)
            status, said = self.ran("check", str(path), "--allow", listed)
            is_accepted = guard.check(data).accepted
            self.assertEqual((status, said[:3]), (0, "yes") if is_accepted else (1, "no:"))


def large_values():
    """Honest values of libraries, by name."""
    numpy, pandas = map(importlib.import_module, ("numpy", "pandas"))
    ensemble = importlib.import_module("sklearn.ensemble")
    text = importlib.import_module("sklearn.feature_extraction.text")
    chance = numpy.random.default_rng(7)
    numbers = chance.random((2_000, 20))
    words = [" ".join(map(str, row)) for row in chance.integers(0, 20_000, (2_000, 20))]
    index = pandas.MultiIndex.from_product([range(300), range(300)], names=["a", "b"])
    yield "arrays", {name: chance.random(200_000) for name in "abc"}
    yield "objects", numpy.array([(k, str(k)) for k in range(100_000)], dtype=object)
    yield "frame", pandas.DataFrame({"x": range(90_000), "y": list(map(str, range(90_000)))}, index)
    yield "categories", pandas.Series(list(map(str, range(60_000)))).astype("category")
    yield "forest", ensemble.RandomForestRegressor(20).fit(numbers, numbers[:, 0])
    yield "vocabulary", text.CountVectorizer().fit(words)
    yield "keys", {(k, (str(k), k / 2)): {k} for k in range(200_000)}


class Honest(unittest.TestCase):
    @needs("module:pandas", "module:sklearn", "module:joblib")
    def test_large_files_of_libraries(self):
        joblib = importlib.import_module("joblib")
        for what, value in large_values():
            files = {protocol: pickle.dumps(value, protocol) for protocol in (2, 4)}
            files["joblib"] = out = io.BytesIO()
            joblib.dump(value, out)
            files["joblib"] = out.getvalue()
            for form, data in files.items():
                with self.subTest(what=what, form=form):
                    self.assertGreater(len(data), 100_000)
                    kinds = {kind for kind, _, _ in findings(data)}
                    self.assertFalse(kinds & {"costly-keys", "changed-import", "too-much"}, kinds)


class Texts(unittest.TestCase):
    def test_build_behind_what_is_no_module(self):
        """Lines of a script look like an import and a BUILD, but no module has such a name."""
        lines = b"omplete -c it -s a\ncomplete -c it\n"
        for module, is_found in ((lines, False), (b"os\nsystem\n", True)):
            data = b"c" + module + b"}b.\n"
            found = reports_of("file", io.BytesIO(data), Question(LISTED))
            self.assertEqual(any(it.is_finding for it in found), is_found, module)


class ManyImports(unittest.TestCase):
    def test_what_is_off_the_list_is_shown_first(self):
        """The last of more imports than a report has room for."""
        listed = AllowList([("a", f"b{number}") for number in range(2_000)])
        data = b"".join(b"ca\nb%d\n0" % number for number in range(2_000)) + b"cos\nsystem\n."
        (found,) = reports_of("file", io.BytesIO(data), Question(listed))
        self.assertEqual(found.missing, (("os", "system"),))
        self.assertLess(len(found.imports), 600)
        self.assertIn("dangerous-import", [it.kind for it in found.findings])


if __name__ == "__main__":
    unittest.main()

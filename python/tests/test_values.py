"""Lists, limits, verdicts and errors are values: compared, copied, pickled, and sent to other
processes.
"""

import collections
import copy
import io
import multiprocessing
import pickle
import threading
import time
import unittest

import storklocker
from common import BY_PAIRS, BY_TEXT, LISTED, needs
from storklocker import AllowList, Limits, Reason

FEW = Limits(stack=1)
LONG = "m" * 100


def told(allow, limits):
    """What another process says, to which both were sent."""
    refused = storklocker.check(b"NN.", allow, limits=limits)
    return (str(refused), allow, limits, [*allow], len(limits and repr(limits) or ""))


def copies(value):
    yield copy.copy(value)
    yield copy.deepcopy(value)
    yield copy.deepcopy([value])[0]
    for protocol in range(pickle.HIGHEST_PROTOCOL + 1):
        yield pickle.loads(pickle.dumps(value, protocol))


class Lists(unittest.TestCase):
    def test_a_list_is_a_set_of_pairs_in_order(self):
        listed = AllowList(reversed(LISTED + LISTED[:1]))
        self.assertEqual([*listed], sorted(LISTED))
        self.assertEqual(len(listed), 3)
        self.assertEqual(listed, BY_PAIRS)
        self.assertEqual(hash(listed), hash(BY_PAIRS))
        self.assertNotEqual(listed, AllowList(LISTED[:2]))
        self.assertNotEqual(listed, LISTED)
        for pair in LISTED:
            self.assertIn(pair, listed)
        for other in (
            ("collections", "Ordered"),
            ("datetime",),
            "ab",
            None,
            ("a", 1),
            ("\ud800", "b"),
        ):
            self.assertNotIn(other, listed)
        self.assertEqual([*AllowList([])], [])
        self.assertFalse(AllowList([]))

    def test_a_dict_and_a_file_are_lists_too(self):
        by_dict = AllowList({"collections": ["OrderedDict", "deque"], "datetime": ("datetime",)})
        self.assertEqual(by_dict, BY_PAIRS)
        self.assertEqual([*BY_TEXT], sorted(LISTED))
        self.assertIsNone(BY_PAIRS.limits)
        self.assertIsNone(BY_TEXT.limits)
        self.assertEqual([*AllowList(BY_TEXT)], [*BY_TEXT])

    def test_the_limits_of_a_file(self):
        text = "version = 2\n[imports]\n[limits]\nstack = 7\npassed = 99\n"
        listed = AllowList.from_text(text)
        self.assertEqual(listed.limits, Limits(stack=7, passed=99))
        self.assertNotEqual(listed, AllowList([]))
        other = AllowList.from_text(
            "version = 2\n[imports]\na = ['b']\n[limits]\nmemo = 3\npassed = 5\n"
        )
        self.assertEqual((listed | other).limits, Limits(stack=7, memo=3, passed=5))
        self.assertEqual((listed | BY_PAIRS).limits, listed.limits)

    def test_a_file_without_limits_sets_none(self):
        table = "version = 2\n[imports]\n"
        for text, limits in (
            (table, None),
            ("version = 1\nimports = {}", None),
            (table + "# [limits]", None),
            (table + "limits = ['a']", None),
            (table + "[limits]", storklocker.STANDARD),
            (table + '["l\\u0069mits"]', storklocker.STANDARD),
            ("version = 2\nlimits = {}\n[imports]", storklocker.STANDARD),
            ("version = 2\nlimits.stack = 3\n[imports]", Limits(stack=3)),
        ):
            self.assertEqual(AllowList.from_text(text).limits, limits, text)
        data = b"\x8e" + (1 << 25).to_bytes(8, "little") + bytes(1 << 25) + b"."
        wide = Limits(passed=1 << 26)
        self.assertFalse(storklocker.check(data, BY_TEXT))
        self.assertTrue(storklocker.check(data, BY_TEXT, limits=wide))
        bound = AllowList.from_text(table + "[limits]")
        self.assertFalse(storklocker.check(data, bound, limits=wide))

    def test_both_of_two_lists(self):
        one, other = AllowList(LISTED[:2]), AllowList(LISTED[1:])
        self.assertEqual(one | other, BY_PAIRS)
        with self.assertRaises(TypeError):
            one | LISTED

    def test_what_is_no_list(self):
        for given, words in (
            (["ab"], "item 0 "),
            ([("a", "b"), ("c",)], "item 1 "),
            ([("a", "b", "c")], "item 0 "),
            ([("a", 1)], "item 0 "),
            ([(b"a", b"b")], "item 0 "),
            ([None], "item 0 "),
            ("ab", "'ab'"),
            (None, "None"),
            (5, "5"),
            ({"a": "b"}, "module 'a'"),
            ({"a": None}, "module 'a'"),
            ({"a": [1]}, "module 'a'"),
            ({1: ["a"]}, "module 1"),
            (LISTED[0], "item 0 "),
        ):
            with self.subTest(given=given), self.assertRaises(TypeError) as raised:
                AllowList(given)
            self.assertIn(words, str(raised.exception))
        for given in ([("", "b")], [("a", "")], [("a", "\ud800")]):
            with self.subTest(given=given), self.assertRaises(ValueError):
                AllowList(given)
        for given in (None, 5, ["version = 1"]):
            with self.subTest(given=given), self.assertRaises(TypeError):
                AllowList.from_text(given)
        with self.assertRaises(storklocker.ListFault):
            AllowList.from_text('version = 1\n[imports]\na = ["\ud800"]')
        with self.assertRaises(OSError):
            AllowList.from_file("no such file")
        for given in (None, 0, [], io.BytesIO()):
            with self.subTest(given=given), self.assertRaises(TypeError):
                AllowList.from_file(given)

    def test_what_is_written_of_a_list(self):
        self.assertEqual(repr(AllowList([("a", "b")])), "AllowList([('a', 'b')])")
        many = AllowList((f"m{k}", "n") for k in range(100_000))
        self.assertLess(len(repr(many)), 200)


class Copies(unittest.TestCase):
    def test_lists(self):
        for listed in (BY_PAIRS, BY_TEXT, AllowList([])):
            for again in copies(listed):
                self.assertEqual(again, listed)
                self.assertEqual(hash(again), hash(listed))
                self.assertIs(storklocker.check(b"ca\nb\n.", again).reason, Reason.ImportOffList)

    def test_limits(self):
        for again in copies(FEW):
            self.assertEqual((again, hash(again)), (FEW, hash(FEW)))
            self.assertEqual(storklocker.check(b"NN.", BY_PAIRS, limits=again).at, 1)
        self.assertNotEqual(FEW, storklocker.STANDARD)
        self.assertNotEqual(Limits(large=True), storklocker.STANDARD)

    def test_limits_of_earlier_versions(self):
        call = b"cstorklocker._limits\nlimits_of\n(I1\nI2\nI3\nI4\nI5\nI00\n"
        few = Limits(counted=1, stack=2, memo=3, passed=4, numbers=5)
        self.assertEqual(pickle.loads(call + b"tR."), few)
        with self.assertRaises(TypeError):  # (None meant a default)
            pickle.loads(call + b"NNNNNtR.")
        free = Limits(levels=None, weight=None, work=None)
        self.assertEqual(list(copies(free)), len(list(copies(free))) * [free])

    def test_a_copy_outlives_what_it_was_made_of(self):
        data = pickle.dumps([Limits(stack=1), AllowList(LISTED)])
        for _ in range(1000):
            limits, listed = pickle.loads(data)
            again = copy.deepcopy(limits), copy.deepcopy(listed)
            del limits, listed
            self.assertEqual(storklocker.check(b"NN.", again[1], limits=again[0]).at, 1)

    def test_verdicts_and_errors(self):
        refused = storklocker.check(b"cos\nsystem\n.", BY_PAIRS)
        errors = [
            storklocker.Refused(refused),
            storklocker.Refused(refused, "a hint"),
            storklocker.MoreBytes(storklocker.check(b"N.", BY_PAIRS), 7),
            storklocker.ListFault("Syntax"),
            storklocker.ListFault("Syntax", "list.toml", 3, "write it otherwise"),
        ]
        for again in copies(refused):
            self.assertEqual(again, refused)
        for error in errors:
            for again in copies(error):
                self.assertIs(type(again), type(error))
                self.assertEqual(
                    (str(again), again.args, vars(again)), (str(error), error.args, vars(error))
                )

    def test_guards(self):
        guard = storklocker.Guard(BY_PAIRS, limits=FEW, old_strings="bytes", on_refusal=print)
        for again in copies(guard):
            self.assertEqual(again.loads(b"U\x01a."), b"a")
            self.assertEqual(again.allow, BY_PAIRS)

    def test_named_tuples(self):
        for value in (FEW, storklocker.Import("a", "b"), storklocker.check(b"ca\nb\n.", BY_PAIRS)):
            words = value._fields
            twin = collections.namedtuple(type(value).__name__, words)(*value)
            self.assertEqual(repr(value), repr(twin))
            self.assertEqual(value._asdict(), twin._asdict())
            self.assertEqual([getattr(value, word) for word in words], [*twin])
            self.assertEqual(type(value)._make(twin), value)
            again = value._replace(**{words[0]: 7})
            self.assertEqual((type(again), again), (type(value), (7, *value[1:])))
            with self.assertRaises(TypeError):
                value._replace(other=7)
        self.assertEqual(storklocker.Verdict.__match_args__, storklocker.Verdict._fields)

    @needs("semaphores")
    def test_another_process(self):
        for way in ("spawn", "fork"):
            with multiprocessing.get_context(way).Pool(1) as pool:
                for allow, limits, line in (
                    (BY_PAIRS, FEW, "no at 1: TooLarge"),
                    (BY_TEXT, None, "no at 2: LeftOver"),
                ):
                    said = pool.apply(told, (allow, limits))
                    self.assertEqual(said[:3], (line, allow, limits))
                guard = storklocker.Guard(BY_PAIRS)
                self.assertEqual(pool.apply(guard.loads, (b"N.",)), None)
                with self.assertRaises(storklocker.Refused) as raised:
                    pool.apply(guard.loads, (b"cos\nsystem\n.",))
                self.assertEqual(raised.exception.pair, ("os", "system"))

    def test_nothing_changes(self):
        for value, name in (
            (FEW, "stack"),
            (BY_PAIRS, "limits"),
            (BY_PAIRS, "_pairs"),
            (FEW, "other"),
        ):
            with self.subTest(name=name), self.assertRaises(AttributeError):
                setattr(value, name, 3)


class LimitsOfAll(unittest.TestCase):
    def test_what_is_no_limit(self):
        for word in ("counted", "stack", "memo", "passed", "numbers"):
            for number in (-1, 1 << 64):
                with self.subTest(word=word), self.assertRaisesRegex(ValueError, f"^{word} must"):
                    Limits(**{word: number})
            for number in ("1", 1.5, b"1", None):
                with self.subTest(word=word), self.assertRaisesRegex(TypeError, f"^{word} must"):
                    Limits(**{word: number})
        for word in ("levels", "weight", "work", "clash", "memory"):
            with self.subTest(word=word), self.assertRaisesRegex(ValueError, f"^{word} must"):
                Limits(**{word: -1})
            with self.subTest(word=word), self.assertRaisesRegex(TypeError, f"^{word} must"):
                Limits(**{word: 1.5})
        with self.assertRaises(TypeError):
            Limits(heap=1)
        with self.assertRaises(ValueError):
            storklocker.check(b"N.", BY_PAIRS, limits=FEW._replace(memo=-1))

    def test_what_is_written(self):
        self.assertEqual(eval(repr(FEW)), FEW)

    def test_large_is_what_a_list_file_says(self):
        said = b"version = 2\n[imports]\n[limits]\nlarge = true\n"
        self.assertEqual(Limits(large=True), storklocker.AllowList.from_text(said).limits)
        said += b"stack = 5\n"
        self.assertEqual(Limits(large=True, stack=5), storklocker.AllowList.from_text(said).limits)
        marks = b"(" * 1_000_001
        self.assertIs(storklocker.check(marks, BY_PAIRS).reason, Reason.TooLarge)
        verdict = storklocker.check(marks, BY_PAIRS, limits=Limits(large=True))
        self.assertIs(verdict.reason, Reason.Truncated)

    def test_memo_numbers(self):
        data = b"Nr\xff\xff\xff\xff."
        self.assertIs(storklocker.check(data, BY_PAIRS).reason, Reason.TooLarge)
        self.assertTrue(storklocker.check(data, BY_PAIRS, limits=Limits(numbers=0xFFFFFFFF)))
        self.assertTrue(storklocker.check(b"Nr\x40\x42\x0f\0.", BY_PAIRS))
        self.assertFalse(storklocker.check(b"Nr\x41\x42\x0f\0.", BY_PAIRS))
        self.assertFalse(storklocker.check(data, BY_TEXT))
        for said, numbers in (("", 1_000_000), ("numbers = 4294967295", 0xFFFFFFFF)):
            text = f"version = 2\n[imports]\nnumbers = ['Number']\n[limits]\n{said}\n"
            listed = storklocker.AllowList.from_text(text)
            self.assertEqual(listed.limits.numbers, numbers)
            self.assertEqual(bool(storklocker.check(data, listed)), bool(said))


class Texts(unittest.TestCase):
    def refused(self, name):
        data = b"\x8c\x01m\x8d" + len(name).to_bytes(8, "little") + name + b"\x93."
        with self.assertRaises(storklocker.Refused) as raised:
            storklocker.loads(data, BY_PAIRS)
        return raised.exception

    def test_a_long_name_is_shortened(self):
        error = self.refused(b"a" * 64)
        self.assertEqual(str(error), f'no at 76: ImportOffList("m","{"a" * 64}")')
        error = self.refused(b"\x01" * 70)
        shown = "\\x01" * 64
        self.assertEqual(str(error), f'no at 82: ImportOffList("m","{shown}" and 6 more bytes)')
        self.assertEqual(error.pair, ("m", "\x01" * 70))
        self.assertEqual(
            str(error.verdict), f'no at 82: ImportOffList("m","{chr(92)}x01' + "\\x01" * 69 + '")'
        )
        self.assertLess(len(repr(error)), 600)

    def test_the_text_of_a_long_name_costs_nothing(self):
        name = b"\x01" * 16_000_000
        data = b"\x8c\x01m\x8d" + len(name).to_bytes(8, "little") + name + b"\x93."
        started = time.process_time()
        with self.assertRaises(storklocker.Refused):
            storklocker.loads(data, BY_PAIRS)
        bare = time.process_time() - started
        started = time.process_time()
        error = self.refused(name)
        self.assertLess(len(str(error)) + len(repr(error)), 1200)
        self.assertLess(time.process_time() - started, 4 * bare + 0.5)

    def test_names_of_every_length(self):
        for length in (1, 510, 511, 512, 513, 4000):
            error = self.refused(b"n" * length)
            self.assertEqual(error.pair, ("m", "n" * length))

    def test_a_refusal_is_quick_whatever_the_length_of_the_list(self):
        few, many = (AllowList((f"m{k:07}", "n") for k in range(count)) for count in (10, 300_000))
        data = b"cmm\nn\n."
        least = [1.0, 1.0]
        for _ in range(20):
            for k, listed in enumerate((few, many)):
                started = time.process_time()
                for _ in range(100):
                    storklocker.check(data, listed)
                least[k] = min(least[k], time.process_time() - started)
        self.assertLess(least[1], 10 * least[0])


class Threads(unittest.TestCase):
    def test_lists_are_made_and_left_in_threads(self):
        wrong = []

        def work():
            for k in range(200):
                listed = AllowList((f"m{j}", "n") for j in range(k))
                if not k or not storklocker.check(f"cm{k - 1}\nn\n.".encode(), listed):
                    wrong.append(k)

        threads = [threading.Thread(target=work) for _ in range(4)]
        for thread in threads:
            thread.start()
        for thread in threads:
            thread.join()
        self.assertEqual(set(wrong), {0})

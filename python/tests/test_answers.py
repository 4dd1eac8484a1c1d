"""What the module answers: the worked cases, and the same as the program over mutated pickles."""

import pathlib
import pickle
import random
import subprocess
import tempfile
import unittest

import storklocker
from common import BY_PAIRS, BY_TEXT, LIST_TEXT, PROGRAM, ROOT, SEEDS
from storklocker._limits import NO_COSTS

EXAMPLES = ROOT / "examples"
# Too large to lie beside the others: examples/run-all makes it too.
LARGE = {"large-payload": b"B\1\0\0\1" + bytes(16_777_217) + b"."}
PIECES = (
    b"(",
    b".",
    b"0",
    b"h\x00",
    b"cos\nsystem\n",
    b"\x95\x03\0\0\0\0\0\0\0",
    b"U\x01a",
    b"U\x01\xe9",
)


def said_of(call, data, file, old_strings):
    """What the module says, in the program's words."""
    try:
        return str(call(data, storklocker.AllowList.from_file(file), old_strings=old_strings))
    except storklocker.ListFault as fault:
        return f"list: {fault.fault}"


class Cases(unittest.TestCase):
    def test_worked_cases(self):
        count = 0
        for line in (EXAMPLES / "cases.tsv").read_text().splitlines():
            if line.startswith("#"):
                continue
            name, listed, options, _status, wanted = line.split("\t")
            options = options.split()
            if not set(options) <= {"-", "--all", "--old-strings", "unknown", "ascii", "bytes"}:
                continue
            call = storklocker.check_row if "--all" in options else storklocker.check
            old_strings = (
                options[options.index("--old-strings") + 1]
                if "--old-strings" in options
                else "unknown"
            )
            data = LARGE.get(name) or (EXAMPLES / "pickles" / f"{name}.pickle").read_bytes()
            file = EXAMPLES / "lists" / f"{listed}.toml"
            with self.subTest(pickle=name, list=listed, old_strings=old_strings):
                said = said_of(call, data, file, old_strings)
                self.assertEqual(said, wanted)
            count += 1
        self.assertGreater(count, 40)

    def test_each_fault_of_a_list(self):
        for text, fault in (
            ("version", "Syntax"),
            (b"\xff", "Syntax"),
            ("version = true\n[imports]", "Shape(Version)"),
            ("version = 1\nother = 1\n[imports]", "Shape(TopKey)"),
            ("version = 1", "Shape(Imports)"),
            ("version = 1\n[imports]\na = 1", "Shape(Module)"),
            ('version = 1\n[imports]\na = [""]', "Shape(Name)"),
            ("version = 9\n[imports]", "Version"),
        ):
            with self.subTest(text=text), self.assertRaises(storklocker.ListFault) as raised:
                storklocker.AllowList.from_text(text)
            self.assertEqual(raised.exception.fault, fault)


def mutated(chance):
    """One of the seeds, with up to three changes."""
    data = bytearray(chance.choice(SEEDS))
    for _ in range(chance.randrange(4)):
        place, kind = chance.randrange(len(data)), chance.random()
        if kind < 0.5:
            data[place] = chance.randrange(256)
        elif kind < 0.8:
            del data[place : place + chance.randrange(1, 5)]
        else:
            data[place:place] = chance.choice(PIECES)
        if not data:
            data = bytearray(b".")
    return bytes(data)


class Agreement(unittest.TestCase):
    def test_one_answer_from_module_and_program(self):
        chance = random.Random(5)
        answers = {"yes": 0, "no": 0}
        with tempfile.TemporaryDirectory() as folder:
            listed, file = pathlib.Path(folder, "list.toml"), pathlib.Path(folder, "pickle")
            listed.write_bytes(LIST_TEXT)
            words = [PROGRAM, "check", "--allow", str(listed), str(file), "--old-strings"]
            for number in range(1000):
                data = mutated(chance)
                file.write_bytes(data)
                old_strings = ("unknown", "ascii", "bytes")[number % 3]
                ran = subprocess.run([*words, old_strings], capture_output=True, text=True)
                # (the program has no limit of memo numbers and of costs, the package has)
                limits = storklocker.Limits(numbers=0xFFFFFFFF, **NO_COSTS)
                named = {"limits": limits, "old_strings": old_strings, "build": "any"}
                verdict = storklocker.check(data, BY_PAIRS, **named)
                self.assertEqual(f"{verdict}\n", ran.stdout, data)
                self.assertEqual(ran.returncode, 0 if verdict else 1, data)
                self.assertEqual(
                    storklocker.check(data, BY_TEXT, old_strings=old_strings),
                    storklocker.check(data, BY_PAIRS, old_strings=old_strings),
                    data,
                )
                answers[ran.stdout.split()[0].rstrip(":")] += 1
        self.assertGreater(min(answers.values()), 100)


class Unshown:
    def __repr__(self):
        raise RuntimeError


class Loads(unittest.TestCase):
    def test_a_listed_pickle_is_loaded(self):
        accepted = [data for data in SEEDS if storklocker.check(data, BY_PAIRS)]
        self.assertGreaterEqual(len(accepted), 20)
        for data in accepted:
            for given in (data, bytearray(data), memoryview(data)):
                loaded = storklocker.loads(given, BY_PAIRS)
                self.assertEqual(loaded, pickle.loads(data))

    def test_a_refused_pickle_is_not_loaded(self):
        data = b"cos\nsystem\n(S'exit 3'\ntR."
        with self.assertRaises(storklocker.Refused) as raised:
            storklocker.loads(data, BY_PAIRS)
        refused = raised.exception
        self.assertEqual(refused.at, 0)
        self.assertIs(refused.reason, storklocker.Reason.ImportOffList)
        self.assertEqual(refused.pair, ("os", "system"))
        self.assertIsInstance(refused, pickle.UnpicklingError)
        why = "Dangerous: It runs a command. Don't list it"
        self.assertEqual((refused.hint, refused.origin), (why, ""))
        self.assertEqual(str(refused), f'no at 0: ImportOffList("os","system") ({why})')
        self.assertEqual(str(pickle.loads(pickle.dumps(refused))), str(refused))

    def test_a_refusal_names_what_is_loaded_and_the_line_to_add(self):
        guard = storklocker.Guard(storklocker.AllowList([]))
        for data, line in (
            (b"cshop.models\nOrder\n.", "shop.models.Order"),
            (b"\x8c\x04shop\x8c\x09Order.New\x93.", "shop:Order.New"),
        ):
            with guard.context({"key": "a\nb"}), self.assertRaises(storklocker.Refused) as raised:
                guard.loads(data)
            hint = f"to permit it: storklocker list add LIST {line}"
            self.assertEqual(raised.exception.hint, hint)
            self.assertIn("(while loading {'key': 'a\\nb'}; to permit it: ", str(raised.exception))
            again = pickle.loads(pickle.dumps(raised.exception))
            self.assertEqual(str(again), str(raised.exception))
        # A name that a stranger has chosen, and a context that can't be shown or is long.
        for data in (b"cshop\n\x1b[2Jx\n.", b"cshop\n" + b"x" * 100 + b"\n."):
            with self.assertRaises(storklocker.Refused) as raised:
                guard.loads(data)
            self.assertEqual(raised.exception.hint, "")
        for context in (Unshown(), "x" * 1000):
            with guard.context(context), self.assertRaises(storklocker.MoreBytes) as raised:
                guard.loads(b"N.N.")
            self.assertRegex(str(raised.exception), r"^the pickle ends after 2 of 4 bytes \(while ")
            self.assertLess(len(str(raised.exception)), 140)

    def test_bytes_behind_stop_are_told(self):
        with self.assertRaises(storklocker.MoreBytes) as raised:
            storklocker.loads(b"N.N.", BY_PAIRS)
        self.assertEqual((raised.exception.taken, raised.exception.length), (2, 4))

    def test_what_can_change_is_not_checked(self):
        for data in (bytearray(b"N."), memoryview(b"N."), "N.", None):
            with self.subTest(data=data), self.assertRaises(TypeError):
                storklocker.check(data, BY_PAIRS)
        for data in ("N.", 5, [78, 46]):
            with self.subTest(data=data), self.assertRaises(TypeError):
                storklocker.loads(data, BY_PAIRS)

    def test_limits(self):
        few = storklocker.Limits(stack=1)
        told = storklocker.check(b"NN.", BY_PAIRS, limits=few)
        self.assertEqual((told.at, told.reason), (1, storklocker.Reason.TooLarge))
        endless = storklocker.Limits(stack=2**64 - 1)
        self.assertEqual(
            storklocker.check(b"N" * 1_000_001, BY_PAIRS, limits=endless).at, 1_000_000
        )
        with self.assertRaises(ValueError):
            storklocker.Limits(memo=-1)

    def test_limits_of_a_list_file(self):
        text = "version = 2\n[imports]\n[limits]\nstack = 1\npassed = 16777217\n"
        listed = storklocker.AllowList.from_text(text)
        self.assertEqual(storklocker.check(b"NN.", listed).at, 1)
        data = b"B" + (16_777_217).to_bytes(4, "little") + bytes(16_777_217) + b"."
        self.assertEqual(storklocker.check(data, listed).taken, 16_777_223)
        told = storklocker.check(data, listed, limits=storklocker.STANDARD)
        self.assertEqual((told.at, told.reason), (0, storklocker.Reason.TooLarge))
        many = storklocker.Limits(passed=16_777_217)
        self.assertEqual(storklocker.check(data, BY_PAIRS, limits=many).taken, 16_777_223)
        with self.assertRaises(storklocker.ListFault) as told:
            storklocker.AllowList.from_text("version = 2\n[imports]\n[limits]\nheap = 1\n")
        self.assertEqual(told.exception.fault, "Shape(LimitKey)")


OLD_STRINGS = [
    # a pickle, and what is said of it where old strings are unknown, texts and bytes
    (
        "55 01 61 55 01 62 93 2e",
        "no at 6: UnknownImport",
        "yes: 8 bytes, 1 imports",
        "no at 6: NotText",
    ),
    ("55 01 e9 2e", "yes: 4 bytes, 0 imports", "no at 0: NotAscii", "yes: 4 bytes, 0 imports"),
    (
        "53 27 5c 78 36 31 27 0a 55 01 62 93 2e",
        "no at 11: UnknownImport",
        "yes: 13 bytes, 1 imports",
        "no at 11: NotText",
    ),
    ("55 00 4e 61 2e", "yes: 5 bytes, 0 imports", "no at 3: WrongClass", "no at 3: WrongClass"),
]


class OldStrings(unittest.TestCase):
    def test_what_they_become(self):
        listed = storklocker.AllowList([("a", "b")])
        by_text = storklocker.AllowList.from_text("version = 1\n[imports]\na = ['b']\n")
        for given, *wanted in OLD_STRINGS:
            data = bytes.fromhex(given)
            for old_strings, said in zip(("unknown", "ascii", "bytes"), wanted):
                for allow in (listed, by_text):
                    told = storklocker.check(data, allow, old_strings=old_strings)
                    self.assertEqual(str(told), said, (given, old_strings))
            self.assertEqual(str(storklocker.check(data, listed)), wanted[0])

    def test_what_was_checked_is_loaded(self):
        data = b"U\x03abcU\x02de\x86."
        for old_strings, loaded in (
            ("unknown", ("abc", "de")),
            ("ascii", ("abc", "de")),
            ("bytes", (b"abc", b"de")),
        ):
            self.assertEqual(storklocker.loads(data, BY_PAIRS, old_strings=old_strings), loaded)
        self.assertEqual(storklocker.loads(b"U\x01\xe9.", BY_PAIRS, old_strings="bytes"), b"\xe9")
        with self.assertRaises(storklocker.Refused) as raised:
            storklocker.loads(b"U\x01\xe9.", BY_PAIRS, old_strings="ascii")
        self.assertIs(raised.exception.reason, storklocker.Reason.NotAscii)

    def test_an_import_named_by_old_strings(self):
        data = b"U\x0bcollectionsU\x05deque\x93)R."
        with self.assertRaises(storklocker.Refused) as raised:
            storklocker.loads(data, BY_PAIRS)
        self.assertIs(raised.exception.reason, storklocker.Reason.UnknownImport)
        self.assertEqual(len(storklocker.loads(data, BY_PAIRS, old_strings="ascii")), 0)

    def test_the_encoding_is_the_callers_where_nothing_is_said(self):
        for encoding, loaded in (("latin-1", "\u00e9"), ("bytes", b"\xe9")):
            self.assertEqual(storklocker.loads(b"U\x01\xe9.", BY_PAIRS, encoding=encoding), loaded)
        self.assertEqual(storklocker.loads(b"U\x01\xe9.", BY_PAIRS, errors="replace"), "\ufffd")
        with self.assertRaises(UnicodeDecodeError):
            storklocker.loads(b"U\x01\xe9.", BY_PAIRS)
        for old_strings in ("ascii", "bytes"):
            for more in ({"encoding": "latin-1"}, {"encoding": "UTF-8"}, {"errors": "replace"}):
                with self.assertRaises(ValueError):
                    storklocker.loads(b"U\x01a.", BY_PAIRS, old_strings=old_strings, **more)

    def test_other_words_are_refused(self):
        for word in ("latin-1", "ASCII", "", None, 1):
            for call in (storklocker.check, storklocker.loads):
                with self.subTest(word=word), self.assertRaises(ValueError):
                    call(b"N.", BY_PAIRS, old_strings=word)


class Pairs(unittest.TestCase):
    def test_each_of_many_pairs_is_found(self):
        pairs = [(f"m{i % 7}", f"n{i * 37 % 101}") for i in range(300)]
        listed = storklocker.AllowList(pairs)
        for module, name in pairs:
            self.assertTrue(storklocker.check(f"c{module}\n{name}\n.".encode(), listed))
        for module, name in (("m7", "n0"), ("m0", "n"), ("m", "0n0"), ("m0", "n1000")):
            data = f"c{module}\n{name}\n.".encode()
            told = storklocker.check(data, listed)
            self.assertEqual(told.pair, (module, name))

    def test_names_beyond_ascii(self):
        module, name = "müll", '\u540d\x7f"'
        data = f"\x8c{chr(len(module.encode()))}".encode("latin-1") + module.encode()
        data += bytes([0x8C, len(name.encode())]) + name.encode() + b"\x93."
        self.assertTrue(storklocker.check(data, storklocker.AllowList([(module, name)])))
        told = storklocker.check(data, BY_PAIRS)
        self.assertEqual(told.pair, (module, name))
        self.assertEqual(
            str(told), r'no at 14: ImportOffList("m\xc3\xbcll","\xe5\x90\x8d\x7f\x22")'
        )

    def test_no_pairs_permit_nothing(self):
        self.assertTrue(storklocker.check(b"N.", storklocker.AllowList([])))
        self.assertFalse(storklocker.check(b"ca\nb\n.", storklocker.AllowList([])))

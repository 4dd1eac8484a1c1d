"""Where instructions end, and what the reader of substitutes is given, against `pickletools`."""

import collections
import io
import pickle
import pickletools
import random
import re
import sys
import unittest

try:
    import tracemalloc
except ImportError:  # (PyPy has none)
    tracemalloc = None

import storklocker
from common import SEEDS
from storklocker._facts import PACKAGES, SUBSTITUTED
from storklocker._storklocker import begin_uses, holds, uses, walked
from storklocker._table import TABLE, substitute_of

LENT = 1 << 14


class Kept:
    """Has a state."""


def pickles():
    """Pickles with every kind of argument."""
    yield from SEEDS
    kept = [Kept(), Kept()]
    kept[0].value = collections.OrderedDict(a=2.5)
    for protocol in range(6):
        yield pickle.dumps([kept, 1 << 70, -1, 1 << 2000, "\u00e9" * 300, b"x" * 300], protocol)
    yield b"(S'a'\nI5\nF1.5\nL7L\nV\\u00e9\np9\ng9\nT\x01\0\0\0aU\x01bK\1M\1\0J\1\0\0\0PQ\nNQNNb0t."


def instructions(data):
    """The opcode, the begin and the end of each instruction."""
    stream, found = io.BytesIO(data), []
    places = [(op.code.encode("latin-1"), at) for op, _, at in pickletools.genops(stream)]
    for number, (code, at) in enumerate(places):
        end = places[number + 1][1] if number + 1 < len(places) else stream.tell()
        found.append((code, at, end))
    return found


class Walk(unittest.TestCase):
    def test_the_end_of_each_pickle(self):
        for data in pickles():
            self.assertEqual(walked(data + b"more.", 0), (len(data), True))
            self.assertEqual(walked(b"N" + data, 1), (1 + len(data), True))

    def test_the_last_whole_instruction_of_a_cut_pickle(self):
        for data in pickles():
            ends = [0, *(end for _, _, end in instructions(data))]
            for length in range(0, len(data), 1 + len(data) // 300):
                whole = max(end for end in ends if end <= length)
                self.assertEqual(walked(data[:length], 0), (whole, False))

    def test_any_bytes(self):
        chosen = random.Random(1)
        for _ in range(20_000):
            data = bytes(chosen.choices(range(256), k=chosen.randrange(40)))
            end, is_stopped = walked(data, 0)
            self.assertLessEqual(end, len(data))
            self.assertEqual(is_stopped, end > 0 and data[end - 1 : end] == b"." and is_stopped)

    def test_what_it_does_not_take(self):
        for given in ((b"N.", 3), (b"N.", -1), (b"N.", None), (bytearray(b"N."), 0), (b"N.",)):
            with self.subTest(given=given), self.assertRaises((TypeError, ValueError)):
                walked(*given)
        walked(b"N.", 2)


REAL = b"NN\x87Q"
"""What has the reader put a real object in place of a name."""
JUDGED = re.compile(b"NK[\1-\7]\x87Q")
"""What has the reader judge what a call has made."""
MADE = {b"\x87\x88]\x87Q": b"\x92", b"tN]\x87Q": b"o", b"]\x87Q": b"\x81", b"}\x87Q": b"R"}
"""What has the reader make an object of what stands for a class, or call what a persistent id gave,
and in place of what.
"""
NEW = {b"b": b"\x86Q", b"Q": b"\x85Q", b"\x95": b""}
WIDTHS = {
    pickletools.TAKEN_FROM_ARGUMENT1: 1,
    pickletools.TAKEN_FROM_ARGUMENT4: 4,
    pickletools.TAKEN_FROM_ARGUMENT4U: 4,
    pickletools.TAKEN_FROM_ARGUMENT8U: 8,
}


def length_of(data, at):
    """The length of an instruction; 0 if it isn't whole."""
    op = pickletools.code2op.get(chr(data[at]))
    if op is None or op.arg is None:
        return 1
    end = at + 1
    if op.arg.n == pickletools.UP_TO_NEWLINE:
        for _ in range(2 if op.arg.name == "stringnl_noescape_pair" else 1):
            end = data.find(b"\n", end) + 1
            if end == 0:
                return 0
        return end - at
    width = WIDTHS.get(op.arg.n)
    if width is None:
        end += op.arg.n
    else:
        end += width + int.from_bytes(data[end : end + width], "little")
        if at + 1 + width > len(data):
            return 0
    return end - at if end <= len(data) else 0


def in_other_words(data, at=0):
    """What the reader is to be given, but where names become real."""
    parts, is_stopped = [], False
    while at < len(data) and not is_stopped and length_of(data, at):
        code, end = data[at : at + 1], at + length_of(data, at)
        parts.append(NEW.get(code, data[at:end]))
        at, is_stopped = end, code == b"."
    return b"".join(parts)


def respelled(data, at=0, role=0):
    """What the reader is given, as one piece. Every name has the role."""
    pieces = uses(begin_uses(), data, at, lambda *given: role and 1 + 1024 * role, True)[0]
    for of, begin, end in pieces:
        assert 0 <= begin < end <= len(of), (begin, end)
        assert of is data or end - begin < len(data) * 4
    return b"".join(of[begin:end] for of, begin, end in pieces)


class Respelled(unittest.TestCase):
    def test_only_build_and_persistent_ids_and_frames(self):
        changed = 0
        for data in pickles():
            parts = [NEW.get(code, data[at:end]) for code, at, end in instructions(data)]
            for at in (0, 1):
                spelled = respelled(b"N" * at + data + b"more", at)
                self.assertEqual(spelled, b"".join(parts))
            changed += spelled != data
        self.assertGreater(changed, 20)

    def test_any_number_of_changes(self):
        for count in (1, 2, 63, 64, 65, 127, 128, 129, 2000):
            for piece in (b"b", b"Q", b"\x95" + bytes(8), b"NNb", b"\x8c\1bQ0"):
                for tail in (b".", b"N.", b"", b"b", b"\x8c"):
                    data = piece * count + tail
                    self.assertEqual(respelled(b"N" + data, 1), in_other_words(data))

    def test_any_distance_of_changes(self):
        for power in (7, 14, 21):  # (where a distance takes one byte more, and a stretch is lent)
            for size in range((1 << power) - 8, (1 << power) + 3):
                text = b"B" + size.to_bytes(4, "little") + size * b"b"
                frame = b"\x95" + bytes(8)
                for first, last in ((b"b", b"b"), (b"", b"b"), (b"b", b""), (frame, b"Q")):
                    data = first + text + last + b"N."
                    self.assertEqual(respelled(data), in_other_words(data))

    def test_any_bytes(self):
        """Also behind an instruction at which a reader fails, and where names become real."""
        words = [b"N", b"b", b"NNb", b"NQ", b"\x95" + bytes(8), b"\x95bbbbQbb.", b"C\3bQ.", b"h\0",
                 b"\x8c\1b", b"ca\nb\n", b"\x8c\1a\x8c\1b\x93", b"q\0", b"\x94", b"(", b"t", b"}",
                 b"s", b"]", b"a", b"e", b"\x85", b"\x86", b"R", b"\x81", b"0", b"2", b"C\xff"]
        chosen, real, lost, judged = random.Random(1), 0, 0, 0
        for seed in range(20_000):
            if seed % 2:
                data = bytes(chosen.choices(range(256), k=chosen.randrange(40)))
            else:
                data = b"".join(chosen.choices(words, k=chosen.randrange(30))) + b"."
            for role in (0, 1, 2, 4, 3, 8, 11):
                told = uses(begin_uses(), data, 0, lambda *given: role and 1 + 1024 * role, True)
                if told[3] >= 0:  # a name is a value and can't be real: nothing is loaded
                    self.assertEqual(told[0], [])
                    continue
                spelled = respelled(data, 0, role)
                plain = JUDGED.sub(b"", spelled.replace(REAL, b""))
                for made, by in MADE.items():
                    plain = plain.replace(made, by)
                self.assertEqual(plain, JUDGED.sub(b"", in_other_words(data)), data)
                real += REAL in spelled
                lost += not told[1] and NEW[b"b"] in spelled
                judged += JUDGED.search(spelled) is not None
        self.assertGreater(real, 500)
        self.assertGreater(lost, 500)
        self.assertGreater(judged, 500)

    def test_behind_an_instruction_at_which_a_reader_fails(self):
        for fault in (b"R", b"h\5", b"t", b"\x93", b"u"):
            data = b"\x80\x04" + fault + b"NNb" * 3 + b"NQ."
            told = uses(begin_uses(), data, 0, len, False)
            self.assertEqual(told[1:], (False, 0, -1, 2))
            self.assertEqual(respelled(data), b"\x80\x04" + fault + b"NN\x86Q" * 3 + b"N\x85Q.")

    def test_long_stretches_are_lent(self):
        for size in (LENT, 1 << 20):
            data = pickle.dumps([Kept(), b"x" * size, Kept()], 4)
            pieces, is_whole, *_ = uses(begin_uses(), data, 0, lambda *given: 0, False)
            self.assertTrue(is_whole)
            lent = [end - begin for of, begin, end in pieces if of is data]
            self.assertEqual(len(lent), 1)
            self.assertGreater(lent[0], size)
            self.assertLess(sum(end - begin for _, begin, end in pieces) - lent[0], 200)

    @unittest.skipIf(tracemalloc is None, "no tracemalloc")
    def test_what_it_notes_takes_no_more_than_the_pickle(self):
        for piece in (b"Nb", b"b", b"Q", b"\x95" + bytes(8), b"b" + b"N" * 130):
            data = b"N" + piece * (400_000 // len(piece)) + b"."
            tracemalloc.start()
            pieces = uses(begin_uses(), data, 0, len, True)[0]
            _, most = tracemalloc.get_traced_memory()
            tracemalloc.stop()
            written = sum(end - begin for _, begin, end in pieces)
            stack = 8 * data.count(b"N") if b"N" * 130 in data else 0
            # (room is a power of two)
            self.assertLess(most, 2 * len(data) + written + 2 * stack + 10_000, piece)


class Listed(unittest.TestCase):
    def test_the_names_that_always_have_substitutes(self):
        said = {(module, name) for module, names in SUBSTITUTED.items() for name in names.split()}
        for pair in TABLE.keys() - said:
            self.assertIn(pair[0].partition(".")[0], PACKAGES)
        for pair in said - TABLE.keys():
            self.assertIsNotNone(substitute_of(pair), pair)
        for pair in said | {("pandas", "DataFrame"), ("numpy.linalg", "norm")}:
            guard = storklocker.Guard(storklocker.AllowList([pair]))
            self.assertTrue(guard.has_substitutes)
        self.assertFalse(storklocker.Guard(storklocker.AllowList([("a", "b")]))._has_substitutes)


class Holds(unittest.TestCase):
    def test_is_what_python_finds(self):
        chosen = random.Random(1)
        for _ in range(5000):
            data = bytes(chosen.choices(b"ab", k=chosen.randrange(12)))
            texts = tuple(
                bytes(chosen.choices(b"ab", k=chosen.randrange(1, 5)))
                for _ in range(chosen.randrange(4))
            )
            self.assertIs(holds(data, texts), any(it in data for it in texts), (data, texts))

    def test_wrong_arguments(self):
        for texts in ([b"a"], (b"",), ("a",), (1,)):
            self.assertRaises(TypeError, holds, b"a", texts)
        self.assertRaises(TypeError, holds, "a", (b"a",))


if __name__ == "__main__":
    sys.exit(unittest.main())

"""No file is called `no pickle` in which a reader of CPython's gets to an import."""

import io
import pickle
import random
import unittest

import storklocker
from storklocker.scanning.judging import Question, reports_of

NOTHING = storklocker.AllowList(())
RUNS = b"cos\nsystem\n(S'echo a hostile pickle ran'\ntR."
LARGE = 17 << 20

FRONTS = (
    b"I1_0\n0", b"I 1\n0", b"I1\0x\n0", b"L0x1f\n0", b"I" + b"1" * 4000 + b"\n0", b"F.5\n0",
    b"S'" + b"a" * 70_000 + b"'\n0", b"V\\ud800\n0", b"X\x03\0\0\0\xed\xa0\x800",
    b"B" + LARGE.to_bytes(4, "little") + bytes(LARGE) + b"0",
    b"]p99999999\n0", b"]p 5\n0", b"(lI1\na2I0\nI5\ns0", b"\x95\x05\0\0\0\0\0\0\0",
)
"""What CPython goes on behind, and the checker does not."""

NUMBERS = (
    b"1", b"01", b" 1", b"1 ", b"1_0", b"0x1f", b"0o7", b"", b"-1", b"+1", b"1L", b"9" * 20, b"1.5",
    b"1e5", b"nan", b"-inf", b"infinity", b" " * 40 + b"-Infinity",
    b"1\0x", b"\t3", b"1\r", b"abc", b"\xff", b".5", b"_1",
)
TEXTS = (b"'a'", b'"a"', b"'a' ", b"'\\x41'", b"'\\x4'", b"''", b"'", b"a", b"'a\"", b"'\xff'")
UNICODE = (b"a", b"\\u0041", b"\\ud800", b"\\u12", b"\xff", b"", b"\\U00010000", b"\\U00110000")
COUNTED = (
    b"X\x02\0\0\0ab", b"X\x02\0\0\0\xff\xfe", b"X\x03\0\0\0\xed\xa0\x80", b"U\x02\xffb",
    b"T\x01\0\0\0a", b"T\xff\xff\xff\xff", b"C\x01a", b"\x8c\x01\xff", b"\x8a\x01\x05", b"\x8a\0",
    b"\x8d\x01\0\0\0\0\0\0\0a", b"\x96\x01\0\0\0\0\0\0\0a", b"\x95\x05\0\0\0\0\0\0\0", b"K\1",
)
PLAIN = (
    *b"(012N\x88]})aesutld\x85\x86\x87\x8f\x90\x91bRoQ\x81\x92\x97\x98\x94", b"q\x01", b"h\x01",
    b"q\xff", b"\x80\x02",
)
ENDS = (
    b"cos\nsystem\n.", b"\x8c\x02os\x8c\x06system\x93.", b"(S'a'\nios\nsystem\n.", b"ios\nsystem\n",
    b"cos\nsystemX", b"cos\n", b"cosX", b"iosX", b"ios\nsystemX",
)


JUNK = b"ab\n\0\xf3\xff."


class Reached(BaseException):
    """A reader is about to import."""


class Stopping:
    """A reader that imports nothing."""

    def find_class(self, module, name):
        if not module.replace(".", "").isidentifier() or not name.isidentifier():
            raise ImportError  # as it does of each name that no module has
        raise Reached

    def persistent_load(self, name):
        return name


class Compiled(Stopping, pickle.Unpickler):
    """The one in C."""


class Written(Stopping, pickle._Unpickler):
    """The one in Python."""


def instruction(chosen):
    """An instruction, mostly a good one."""
    kind = chosen.random()
    if kind < 0.3:
        return chosen.choice((b"I", b"F", b"L", b"p", b"g")) + chosen.choice(NUMBERS) + b"\n"
    if kind < 0.4:
        return b"S" + chosen.choice(TEXTS) + b"\n"
    if kind < 0.5:
        return chosen.choice((b"V", b"P")) + chosen.choice(UNICODE) + b"\n"
    if kind < 0.6:
        return chosen.choice(COUNTED)
    plain = chosen.choice(PLAIN)
    return plain if isinstance(plain, bytes) else bytes((plain,))


def is_reached(data):
    """Whether a reader gets to an import."""
    for kind in (Compiled, Written):
        try:
            kind(io.BytesIO(data)).load()
        except Reached:
            return True
        except BaseException:
            continue
    return False


DROPPING = b"\x95\x03\0\0\0\0\0\0\0X\xff\xf3" + b"\x02\0\0\0ab0" + ENDS[0]
"""A reader gets to its import that drops what a frame has of an argument."""


def status(data):
    report, *_ = reports_of("x", io.BytesIO(data), Question(NOTHING))
    return report.status


class Reaching(unittest.TestCase):
    def test_what_the_checker_is_stricter_about(self):
        for front in FRONTS:
            self.assertEqual(status(front + RUNS), "refused", front[:20])
        for data in (b"\x82\x01.", b"(S'a'\nS'b'\n\x93.", b"]].", RUNS[:14]):
            self.assertEqual(status(data), "refused", data)

    def test_what_no_reader_goes_on_behind(self):
        for data in (
            b"In the beginning\nc\nb\n.", b"See\n", b"Fine\nwords\n", b"Some 'quoted' text\n",
            b"Large\n", b"(c) 2026 the authors\n", b"X\xff\xff\xff\x7f", b"I1\n",
            b"I" + b"1" * 70_000, b"\x80\x09" + RUNS, b" " + RUNS,
        ):
            self.assertEqual(status(data), "no pickle", data[:40])

    def test_as_readers_do(self):
        chosen, reached = random.Random(20261124), 0
        for _ in range(20_000):
            parts = [instruction(chosen) for _ in range(chosen.randint(1, 8))]
            data = b"".join(parts) + chosen.choice(ENDS)
            if is_reached(data):
                reached += 1
                self.assertEqual(status(data), "refused", data)
        self.assertGreater(reached, 500)

    def test_across_the_end_of_a_frame(self):
        """The reader in C drops what a frame has of an argument, and reads that again behind it.

        Newer ones raise.
        """
        chosen, reached = random.Random(20261127), 0
        for _ in range(5_000):
            last = chosen.choice((*ENDS, b"I1\n", b"S'a'\n", *COUNTED)) + b"0" + ENDS[0]
            parts = [instruction(chosen) for _ in range(chosen.randint(0, 2))]
            parts += (last[:1], bytes(chosen.choices(JUNK, k=chosen.randint(1, 4))))
            framed = b"".join(parts)
            data = b"\x95" + len(framed).to_bytes(8, "little") + framed + last[1:]
            if is_reached(data):
                reached += 1
                self.assertEqual(status(data), "refused", data)
        self.assertEqual(status(DROPPING), "refused")
        self.assertGreater(reached, 500 if is_reached(DROPPING) else 0)


if __name__ == "__main__":
    unittest.main()

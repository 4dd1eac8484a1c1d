"""Many calls, and threads with little room."""

import contextlib
import gc
import threading
import unittest
from pathlib import Path

import storklocker
from common import BY_PAIRS, BY_TEXT, SEEDS, needs

CASES = [
    *((data, BY_PAIRS) for data in SEEDS[::5]),
    (SEEDS[0][:-1], BY_PAIRS),
    (b"", BY_TEXT),
    (b"\xff", BY_TEXT),
    (b"cos\nsystem\n.", BY_TEXT),
    (b"]q\x01h\x05.", BY_TEXT),
    (b"(((((((", BY_TEXT),
    (b"X\x05\x00\x00\x00abc", BY_PAIRS),
    (b"\x8c\x01m\x8d\x58\x02\0\0\0\0\0\0" + 600 * b"n" + b"\x93.", BY_PAIRS),
]


def resident():
    """Kilobytes of this process in memory."""
    return int(Path("/proc/self/statm").read_text().split()[1]) * 4


def call(count):
    """Checks pickles, and loads some of them. Returns how many were loaded."""
    guard, loaded = storklocker.Guard(BY_PAIRS), 0
    for k in range(count):
        data, listed = CASES[k % len(CASES)]
        storklocker.check(data, listed)
        if k % 50 == 0:
            again = storklocker.AllowList(listed) | BY_PAIRS
            storklocker.check_row(data, again, limits=storklocker.Limits(stack=k))
            storklocker.AllowList.from_text("version = 1\n[imports]\na = ['b']\n")
            with contextlib.suppress(storklocker.Refused):
                guard.loads(data)
                loaded += 1
    return loaded


class Endurance(unittest.TestCase):
    @needs("/proc/self/statm")
    def test_memory_stays_flat(self):
        call(10_000)
        gc.collect()
        before = resident()
        self.assertGreater(call(200_000), 500)
        gc.collect()
        self.assertLess(resident() - before, 1024)

    def test_short_checks_beside_long_ones(self):
        def answer(data, listed):
            return repr(storklocker.check(data, listed))

        # (memo numbers out of order, each of which takes a block or a part of one)
        puts = b"".join(b"r" + (k * 7_919 % 1_000_003).to_bytes(4, "little") for k in range(20_000))
        longs = [(b"]" + puts + b".", BY_TEXT), (b"]" + puts + b"h\xff.", BY_TEXT)]
        longs, shorts = (
            [(data, listed, answer(data, listed)) for data, listed in cases]
            for cases in (longs, CASES)
        )
        wrong = []

        def work(cases, count):
            for _ in range(count):
                wrong.extend(data for data, listed, said in cases if answer(data, listed) != said)

        works = [(longs, 40), (shorts, 200), (longs, 40), (shorts, 200)]
        threads = [threading.Thread(target=work, args=it) for it in works]
        for thread in threads:
            thread.start()
        for thread in threads:
            thread.join()
        self.assertEqual(wrong, [])

    def test_a_thread_with_a_small_stack(self):
        answers = []

        def work():
            for data in (b"(" * 999_999, b"]" * 500_000 + b"a" * 499_999 + b"."):
                answers.append(str(storklocker.check(data, BY_PAIRS)))

        before = threading.stack_size(256 * 1024)
        thread = threading.Thread(target=work)
        threading.stack_size(before)
        thread.start()
        thread.join()
        self.assertEqual(answers, ["no at 999999: Truncated", "yes: 1000000 bytes, 0 imports"])


if __name__ == "__main__":
    unittest.main()

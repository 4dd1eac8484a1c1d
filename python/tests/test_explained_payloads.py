"""What `explain` opens: hidden commands, beside a reader of CPython that runs them."""

import base64
import gzip
import lzma
import operator
import pickle
import random
import unittest
import zlib

import explained_hostile
import explained_kept
import storklocker
from common import python
from storklocker.explaining.brief import brief
from storklocker.explaining.marshalled import NotRead, code_in

# `import os; def f(x): return os.system('id'); f(1 << 80)`, as Python 3.8 and 3.13 marshal it.
MARSHALLED = {
    "code of Python 3.8 to 3.10": (
        "YwAAAAAAAAAAAAAAAAAAAAACAAAAQAAAAHMcAAAAZABkAWwAWgBkAmQDhABaAWUBZASDAQEAZAFTACkF6QAAAABO"
        "YwEAAAAAAAAAAAAAAAEAAAADAAAAQwAAAHMKAAAAdACgAWQBoQFTACkCTtoCaWQpAtoCb3PaBnN5c3RlbSkB2gF4"
        "qQByBQAAAPoDPHg+2gFmAgAAAPMAAAAAcgcAAABsBgAAAAAAAAAAAAAAAAAgACkCcgIAAAByBwAAAHIFAAAAcgUA"
        "AAByBQAAAHIGAAAA2gg8bW9kdWxlPgEAAABzBAAAAAgBCAE="
    ),
    "code of Python 3.11 or later": (
        "YwAAAAAAAAAAAAAAAAMAAAAAAAAA8yIAAACVAFMAUwFLAHIAUwIaAHIBXAEiAFMDNQEAAAAAAAAgAGcBKQTpAAAA"
        "AE5jAQAAAAAAAAAAAAAAAwAAAAMAAADzLgAAAJUAWwAAAAAAAAAAAFICAAAAAAAAAAAAAAAAAAAAAAAAIgBTATUB"
        "AAAAAAAAJAApAk7aAmlkKQLaAm9z2gZzeXN0ZW0pAdoBeHMBAAAAINoDPHg+2gFmcggAAAACAAAAcw8AAACAAJQS"
        "lxmSGZg0kx/QCiDzAAAAAGwGAAAAAAAAAAAAAAAAACAAKQJyBAAAAHIIAAAAqQByCQAAAHIHAAAA2gg8bW9kdWxl"
        "PnILAAAAAQAAAHMSAAAA8AMBAQHbAAnaACDZAAGAJYUIcgkAAAA="
    ),
}
MOST = 200_000


def said(data):
    """The explanation of a pickle."""
    return str(storklocker.explain(data))


class Hidden(unittest.TestCase):
    def test_commands(self):
        self.is_read("explained_hostile.hidden()", dict(explained_hostile.hidden()), 95)

    def test_kept_commands(self):
        self.is_read("explained_kept.kept()", dict(explained_kept.kept()), 90)

    def is_read(self, made, named, least):
        """The command of each pickle that runs one in a reader can be read."""
        code = "import explained_hostile, explained_kept; from explained_hostile import Point; "
        code += f"explained_hostile.run(list({made}))"
        ran = set(python(code, "-W", "ignore").splitlines())
        self.assertGreaterEqual(len(ran), least)
        self.assertLessEqual(ran, set(named))
        commands = (explained_hostile.COMMAND, f"'touch', '{explained_hostile.MARK}'")
        for name in ran:
            with self.subTest(name):
                self.assertTrue(any(it in said(named[name]) for it in commands))

    def test_examples_of_the_catalogue(self):
        """Each dangerous name has an example, which tests let harm."""
        code = "import explained_hostile; print(*explained_hostile.examples())"
        count, *unread = python(code, "-W", "ignore").split()
        self.assertGreater(int(count), 100)
        self.assertEqual(unread, [])

    def test_nothing_runs(self):
        """A payload is never loaded or called here: `exec` of this would end the process."""
        code = pickle.dumps(explained_hostile.Call(exec, b"import os; os._exit(1)"))
        loads = explained_hostile.Call(pickle.loads, code)
        self.assertIn("_exit(1)", said(pickle.dumps(loads)))

    def test_bombs(self):
        """What unpacks to much, or is joined to much, stays shut."""
        call, much = explained_hostile.Call, bytes(1 << 26)
        join = explained_hostile.bound(b"a", "join")
        deep = call(join, [b"b"] * 2000)
        for _ in range(4):
            deep = call(join, [deep, deep] * 500)
        inner = pickle.dumps(1)
        for _ in range(3):
            inner = pickle.dumps([call(pickle.loads, inner + bytes([it])) for it in range(20)])
        front = b"cbuiltins\nexec\n(cbuiltins\nlist\n"
        for name, data in (
            ("zlib", pickle.dumps(call(exec, call(zlib.decompress, zlib.compress(much, 9))))),
            ("gzip", pickle.dumps(call(exec, call(gzip.decompress, gzip.compress(much, 9))))),
            ("lzma", pickle.dumps(call(exec, call(lzma.decompress, lzma.compress(much))))),
            ("join", pickle.dumps(call(exec, deep))),
            ("pickles in pickles", inner),
            ("many that are broken", pickle.dumps([call(exec, call(
                zlib.decompress, zlib.compress(bytes(4_000_000), 9)[:-1] + bytes([it])
            )) for it in range(99)])),
            ("a tuple doubled", front + b"(K\x01" + b"2\x86" * 60 + b"tRtR."),
        ):
            with self.subTest(name):
                self.assertLess(len(said(data)), MOST)
        bomb = pickle.dumps(call(exec, call(zlib.decompress, zlib.compress(much, 9))))
        self.assertIn("exec(more than 4,194,304 bytes of zlib.decompress(", said(bomb))

    def test_changed_lists(self):
        """A value is shown as it is when it is used, and one that a call may change isn't shown."""
        join = b"0cbuiltins\ngetattr\n(V\nVjoin\ntR(h\0tRq\1"
        listed = b"(lq\0V print(1)\na" + join
        later = said(listed + b"0h\0Vx\na0cbuiltins\nexec\n(h\1tR.")
        self.assertIn("exec runs:\n#                  print(1)\n", later)
        popped = b"0cbuiltins\ngetattr\n(h\0Vpop\ntR)R"
        front = b"(lq\0V print(1)\naV print(2)\na"
        run = b"q\2cbuiltins\nexec\n(h\2tR."
        self.assertIn("exec runs:\n#                  print(2)\n", said(front + popped + run))
        self.assertNotIn("exec runs", said(front + 2 * popped + run))

    def test_calls_of_calls(self):
        """What lies deep is opened, and where too much lies, it is said."""
        code = "exec runs:\n#                  print(1)\n"
        for count, text in ((1000, code), (60_000, "too much to open")):
            data = b"cbuiltins\nbytes\nq\0cbuiltins\nexec\n(" + b"h\0" * count
            data += b"\x8e\x09" + bytes(7) + b" print(1)" + b"\x85R" * count + b"tR."
            with self.subTest(count=count):
                self.assertIn(text, said(data))

    def test_what_is_opened_first(self):
        """What harmless statements hide doesn't use up what opening may cost."""
        call = explained_hostile.Call
        large = zlib.compress(bytes(4_000_000), 9)
        many = [call(len, call(zlib.decompress, large + bytes(it))) for it in range(9)]
        code = call(exec, call(base64.b64decode, base64.b64encode(b"print(4711)")))
        found = said(pickle.dumps([*many, code]))
        self.assertIn("print(4711)", found)
        self.assertIn("too much to open", found)

    def test_numbers(self):
        """A number of many digits is never written in decimal, which takes the square of them."""
        number = int.from_bytes(b" print(1)#" * 30_000, "little")
        made = explained_hostile.Call(int.to_bytes, number, 300_000, "little")
        self.assertIn("print(1)# print(1)", said(pickle.dumps(explained_hostile.Call(exec, made))))
        added = explained_hostile.Call(exec, explained_hostile.Call(operator.add, number, 1))
        self.assertIn("a number of 2,399,9", said(pickle.dumps(added)))

    def test_too_deep(self):
        inner = pickle.dumps(explained_hostile.Call(print, "at the end"))
        for _ in range(8):
            inner = pickle.dumps(explained_hostile.Call(pickle.loads, inner))
        self.assertIn("at the end", said(inner))
        more = said(pickle.dumps(explained_hostile.Call(pickle.loads, inner)))
        self.assertIn("it isn't opened: there are too many payloads", more)


class Marshalled(unittest.TestCase):
    def test_names_and_constants(self):
        for version, text in MARSHALLED.items():
            outer, inner = code_in(base64.b64decode(text)).lines()
            self.assertIn(version, outer)
            self.assertIn("names os, f;", outer)
            self.assertIn(str(1 << 80), outer)
            self.assertIn("names os, system; constants None, 'id'", inner)

    def test_hostile_bytes(self):
        """Whatever the bytes are, they are code or aren't."""
        chosen = random.Random(4)
        for text in MARSHALLED.values():
            for _ in range(3000):
                data = bytearray(base64.b64decode(text))
                for _ in range(chosen.randrange(1, 4)):
                    data[chosen.randrange(len(data))] = chosen.randrange(256)
                try:
                    list(code_in(bytes(data)).lines())
                except NotRead:
                    pass
        doubled = (1,)
        for _ in range(60):
            doubled = (doubled, doubled)
        self.assertLess(len(brief(doubled)), 5000)


if __name__ == "__main__":
    unittest.main()

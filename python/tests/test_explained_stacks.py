"""What `dis --stack` shows of the stack and the memo, beside CPython's reader in Python."""

import contextlib
import copyreg
import functools
import io
import pathlib
import pickle
import pickletools
import subprocess
import tempfile
import unittest

from common import PROGRAM, ROOT, SEEDS, needs
from storklocker.explaining import stacks
from storklocker.scanning.source import in_memory

PICKLES = sorted((ROOT / "examples" / "pickles").glob("*.pickle"))
ROWS = [
    b"I1\n0L2L\n0F1.5\n0J\1\0\0\0000M\1\0000G" + bytes(8) + b"0\x8a\1\1000\x8b\1\0\0\0\1000N.",
    b"(S'a'\np0\nVa\np1\ng0\ng1\nt0N.",
    b"U\1aq\x000T\1\0\0\0ar\1\0\0\0000h\0j\1\0\0\0\x86.",
    b"C\1a\x940B\1\0\0\0a0\x8e\1" + bytes(7) + b"a0\x96\1" + bytes(7) + b"a0h\0.",
    b"X\1\0\0\0a0\x8c\1a0\x8d\1" + bytes(7) + b"a2\x86.",
    b"(K\1(K\2K\0031K\4l.", b"(K\1K\2d(K\1K\2u.", b"](K\1K\2e.", b"\x8f(K\1K\2\x90.",
    b"(K\1K\2\x910N\x85N\x88\x89\x870N.", b"}K\1K\2s.", b"]K\1a.", b"))\x86.",
    b"cos\npath\n0\x8c\2os\x8c\4path\x93.", b"(icollections\nOrderedDict\n.",
    b"(ccollections\nOrderedDict\no.", b"ccollections\nOrderedDict\n)\x81}K\1K\2sb.",
    b"ccollections\nOrderedDict\n)}\x92.", b"ccollections\nOrderedDict\n)R.",
    b"Pa\n0K\1Q.", b"\x80\5\x95\5" + bytes(7) + b"\x97\x98N\x86.",
    b"\x82\1.", b"\x83\1\0.", b"\x84\1\0\0\0.",
]
"""Pickles that have all instructions, with those of `SEEDS`."""


class Walk(stacks._Stacks):
    """Keeps what is shown."""

    def __init__(self, data):
        super().__init__(in_memory(io.BytesIO(data)), iter(()))
        self.rows = []

    def after(self):
        self.rows.append((self._depth(), sorted(self._memo)))


class Reader(pickle._Unpickler):
    """Keeps what is on the stack and in the memo after each instruction."""

    def __init__(self, data):
        super().__init__(io.BytesIO(data), buffers=[bytearray(b"x")])
        self.rows = []
        self.dispatch = {
            code: functools.partial(self.after, act) for code, act in self.dispatch.items()
        }

    def after(self, act, reader):
        ended = None
        try:
            act(reader)
        except pickle._Stop as stop:
            ended = stop
        held = [len(it) for it in self.metastack]
        self.rows.append((sum(held) + len(held) + len(self.stack), sorted(self.memo)))
        if ended:
            raise ended

    def persistent_load(self, identifier):
        return identifier


@contextlib.contextmanager
def registered():
    """What a number stands for."""
    copyreg.add_extension("os", "path", 1)
    try:
        yield
    finally:
        copyreg.remove_extension("os", "path", 1)


class Stacks(unittest.TestCase):
    def test_beside_the_reader(self):
        pickles = (*ROWS, *SEEDS)
        names = {it.name for data in pickles for it, _, _ in pickletools.genops(data)}
        self.assertEqual(names, {it.name for it in pickletools.opcodes})
        with registered():
            for data in pickles:
                reader, walk = Reader(data), Walk(data)
                reader.load()
                walk.through()
                with self.subTest(data=data):
                    self.assertEqual(walk.rows, reader.rows)

    @needs(PROGRAM)
    def test_lines(self):
        """The program's text stays as it is, to the byte."""
        for path in PICKLES:
            expected = subprocess.run([PROGRAM, "dis", str(path)], stdout=subprocess.PIPE)
            out = self.listed(path.read_bytes())
            lines = [it for it in out.splitlines(True) if not it.startswith(stacks._INDENT)]
            with self.subTest(path=path.name):
                self.assertEqual("".join(lines).encode(), expected.stdout)

    @needs(PROGRAM)
    def test_text(self):
        out = self.listed(b"\x8c\1a\x94cos\nsystem\n(K\1K\2tR\x86h\0]" + b"2" * 20 + b"(1000t.")
        self.assertIn("stack: 'a', os.system, MARK, 1, 2\n        memo: 0 = 'a'\n", out)
        self.assertIn("stack: 'a', os.system(...)\n", out)
        self.assertIn("stack: ... 15 more, [], [], [], [], [], [], [], []\n", out)
        doubled = self.listed(b"K\1" + b"2\x86" * 1000 + b".")
        self.assertLess(max(map(len, doubled.splitlines())), 600)

    def listed(self, data):
        """What the command prints for a pickle."""
        with tempfile.NamedTemporaryFile() as file:
            pathlib.Path(file.name).write_bytes(data)
            said = io.StringIO()
            with contextlib.redirect_stdout(said):
                stacks.list_with_stacks(pathlib.Path(PROGRAM), file.name)
        return said.getvalue()


if __name__ == "__main__":
    unittest.main()

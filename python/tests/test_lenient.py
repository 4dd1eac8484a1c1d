"""What any reader of CPython's imports is named: the readers in C and in Python are asked, too.

    python3 test_lenient.py --fronts 1000000 [SEED]

compares more of the generated fronts than the gate does. Another state of the sources has others.
"""

import io
import os
import pathlib
import pickle
import random
import struct
import subprocess
import sys
import unittest
import warnings
import zipfile
import zlib

from storklocker.scanning import lenient
from storklocker.scanning.judging import Question, reports_of
from storklocker.scanning.lenient import UNKNOWN
from storklocker.scanning.reaching import followed_from
from storklocker.scanning.severity import DANGER, UNREADABLE
from storklocker.scanning.source import in_memory

FRONTS, STORED = 8_000, 3_000
SEED = zlib.crc32(b"".join(
    it.read_bytes() for it in sorted(pathlib.Path(lenient.__file__).parent.glob("*.py"))
))
MEMORY = 1 << 31
"""What a reader may take, which makes room for any number before it looks for the bytes."""

LINES = (
    b"1", b"01", b" 1", b"1 ", b"1_0", b"0x1f", b"0o7", b"007", b"", b"-1", b"+1", b"1L", b"9" * 20,
    b"1.5", b"1e5", b"nan", b"-inf", b"infinity", b"1\0x", b"\t3", b"1\r", b"abc", b"\xff", b".5",
    b"2", b"0", b"0", b"1", b"2",
)
QUOTED = (
    b"'os'", b'"posix"', b"'os' ", b"'\\x6fs'", b"'\\157s'", b"'\\x4'", b"''", b"'", b"a", b"'a\"",
    b"'\xff'", b"'a\\\\b'", b"'a\\nb'", b"'\\q'", b"' os '",
)
UNICODE = (b"os", b"\\u006fs", b"\\ud800", b"\\u12", b"\xff", b"", b"\\U00010000", b"\\U00110000")
COUNTED = (
    b"X\x02\0\0\0os", b"X\x02\0\0\0\xff\xfe", b"X\x03\0\0\0\xed\xa0\x80", b"U\x02\xffb",
    b"T\x02\0\0\0os", b"T\xff\xff\xff\xff", b"C\x01a", b"\x8c\x01\xff", b"\x8a\x01\x05", b"\x8a\0",
    b"\x8d\x02\0\0\0\0\0\0\0os", b"\x96\x01\0\0\0\0\0\0\0a", b"\x95\x05\0\0\0\0\0\0\0", b"K\1",
    b"\x8c\x02os", b"\x8c\x06system", b"J\1\0\0\0", b"M\1\0", b"G" + bytes(8), b"\x8b\0\0\0\0",
    b"\x8b\xff\xff\xff\xff", b"B\1\0\0\0a", b"\x8e\1\0\0\0\0\0\0\0a", b"\x82\1", b"\x83\1\0",
    b"\x84\1\0\0\0", b"\x82\0", b"\x80\1", b"\x80\0", b"\x80\5", b"\x80\6",
    b"q\0", b"h\0", b"q\1", b"h\1", b"q\xff", b"r\1\0\0\0", b"j\1\0\0\0", b"\x80\x02",
)
PLAIN = b"(012N\x88\x89]})aesutld\x85\x86\x87\x8f\x90\x91bRoQ\x81\x92\x97\x98\x94((0t.\x93"
NAMES = (b"os\nsystem\n", b"a.b\nc.d\n", b"os\0x\nsystem\n", b"a b\nc\n", b"\xff\nc\n",
         b"\xc3\xa9\nc\n", b"\xe2\x84\x98\nc\n", b"os\n\xed\xa0\x80\n", b"os\r\nsystem\r\n",
         b"os\n\n", b"os\n system\n", b"os\0\nsystem\0x\n")
WORDS = ("os", "system", "os", "system", "a.b", "\xe9", "\u2118", "a\xb7b", "\ud800", "", "o s",
         "os\0x", "a-b", "\U0001d4b3", "-", ".", *"os system a.b".split() * 3, "a" * 1001)
PLACES = (0, 1, 2, 7, 255, 256, 65_536, 99_999)
ENDS = (
    b"cos\nsystem\n.", b"\x8c\x02os\x8c\x06system\x93.", b"(S'a'\nios\nsystem\n.", b"ios\nsystem\n",
    b"cos\nsystemX", b"cos\n", b"cosX", b"iosX", b"ios\nsystemX", b"\x93.", b".", b"",
)


class Anything:
    """What a name stands for: it can be called, and changed by all instructions."""

    def __init__(self, *_, **__):
        self.made = _

    def __setstate__(self, state):
        pass

    def append(self, item):
        pass

    add = append

    def extend(self, items):
        list(items)

    def __setitem__(self, key, value):
        pass


def text_of(*_):
    """A function whose result is a text."""
    return "os"


class Noting:
    """A reader that notes what it would import, and goes on with something else."""

    buffers = ("os", "system")

    def __init__(self, *words, **more):
        super().__init__(*words, **more, buffers=self.buffers)
        self.asked = []

    def find_class(self, module, name):
        if not all(it.isidentifier() for it in module.partition("\0")[0].split(".")):
            raise ImportError  # as it does of each name that no module has
        self.asked.append((module, name))
        if not all(it.isidentifier() for it in name.split(".")):
            raise AttributeError  # no module has that
        return text_of if len(self.asked) % 3 == 2 else Anything

    def persistent_load(self, name):
        return "os"


class Compiled(Noting, pickle.Unpickler):
    """The one in C."""


class Written(Noting, pickle._Unpickler):
    """The one in Python."""

    def get_extension(self, code):
        if code <= 0:
            raise ValueError
        self.asked.append((None, None))
        self.append(Anything)


class Alone:
    """A reader to which its program gives nothing."""

    buffers = None

    def persistent_load(self, name):
        raise pickle.UnpicklingError


class CompiledAlone(Alone, Compiled):
    """The one in C."""


class WrittenAlone(Alone, Written):
    """The one in Python."""


class Unbuffered(io.RawIOBase):
    """A file that gives what is asked for, and can't look ahead."""

    def __init__(self, data):
        self._file = io.BytesIO(data)

    def read(self, count=-1):
        return self._file.read(count)

    def readinto(self, room):
        return self._file.readinto(room)

    def readline(self, count=-1):
        return self._file.readline(count)


def instruction(chosen):
    """An instruction, mostly a good one."""
    kind = chosen.random()
    if kind < 0.2:
        return bytes([chosen.choice(b"IFLpg")]) + chosen.choice(LINES) + b"\n"
    if kind < 0.3:
        return b"S" + chosen.choice(QUOTED) + b"\n"
    if kind < 0.4:
        return chosen.choice((b"V", b"P")) + chosen.choice(UNICODE) + b"\n"
    if kind < 0.65:
        return chosen.choice(COUNTED)
    if kind < 0.75:
        return chosen.choice((b"c", b"i", b"(i")) + chosen.choice(NAMES)
    return bytes([chosen.choice(PLAIN)])


def written(word, chosen):
    """Instructions that make a text."""
    data = word.encode("utf-8", "surrogatepass")
    kind = chosen.randrange(9)
    if kind < 3:
        code, width = ((b"\x8c", 1), (b"X", 4), (b"\x8d", 8))[kind]
        data = data[: (1 << 8 * width) - 1]
        return code + len(data).to_bytes(width, "little") + data
    if kind == 3:
        return b"V" + word.encode("raw-unicode-escape", "surrogatepass") + b"\n"
    if kind == 4:
        return b"V" + b"".join(b"\\U%08x" % ord(it) for it in word) + b"\n"
    if kind == 5:
        return b"T" + struct.pack("<i", len(data)) + data
    if kind == 6:
        return b"U" + bytes([min(len(data), 255)]) + data[:255]
    form = chosen.choice((b"\\x%02x", b"\\%03o", b"\\%o", b"%c"))
    return b"S'" + b"".join(form % it for it in data) + b"'\n"


def placed(letters, chosen):
    """An instruction of the memo: GET or PUT, in one of its forms."""
    place, form = chosen.choice(PLACES), chosen.randrange(3)
    if form == 0:
        line = chosen.choice((b"%d", b" %d", b"%d ", b"0%d", b"+%d", b"%d\0", b"%d_0")) % place
        return letters[:1] + line + b"\n"
    if form == 1:
        return letters[1:2] + bytes([place & 255])
    return letters[2:] + struct.pack("<I", place)


def stored_text(chosen):
    """A text that stands on the stack, in the memo, or below other values."""
    made = written(chosen.choice(WORDS), chosen)
    kind = chosen.randrange(8)
    kept = placed(b"pqr", chosen)
    ways = (b"", b"2", b"\x94", kept, b"20", b"(0", b"(N1", instruction(chosen) + b"0")
    return made + ways[kind] + (b"0" if kind in (2, 3) and chosen.random() < 0.5 else b"")


def spelled(chosen):
    """Instructions that find the texts of an import by all ways."""
    parts = [stored_text(chosen) for _ in range(chosen.randint(1, 4))]
    for _ in range(chosen.randint(0, 3)):
        parts.append(chosen.choice((
            placed(b"ghj", chosen), b"2", b"0", b"(", b"1", b"h\0h\1", b"\x97", b"Pos\n", b"NQ",
            placed(b"pqr", chosen), b"cos\nsystem\n)R", b"cos\nsystem\n)R}b", instruction(chosen),
        )))
    ends = (b"\x93", b"\x93", b"\x93", b"o", b"ios\nsystem\n", b"\x82\1\x93")
    parts.append(chosen.choice(ends))
    return parts


def front(chosen):
    """The bytes of a pickle, perhaps a broken one, perhaps in a frame."""
    if chosen.random() < 0.5:
        parts = [instruction(chosen) for _ in range(chosen.randint(1, 12))]
    else:
        parts = [it for _ in range(chosen.randint(1, 3)) for it in spelled(chosen)]
    data = b"".join(parts) + chosen.choice(ENDS)
    kind = chosen.random()
    if kind < 0.15:
        at = chosen.randrange(len(data) + 1)
        size = chosen.choice((len(data) - at, chosen.randrange(len(data) + 3)))
        data = data[:at] + b"\x95" + size.to_bytes(8, "little") + data[at:]
    elif kind < 0.25:
        data = data[: chosen.randrange(len(data) + 1)]
    return data


def buffered(data):
    """A file that can look ahead."""
    return io.BufferedReader(io.BytesIO(data))


def imported(data, kinds=(Compiled, Written)):
    """What the readers ask for, and whether one gets to STOP."""
    asked, is_ended = {}, False
    has_bytes = any(code in data for code in b"STU")
    for kind in kinds:
        for opened in (io.BytesIO, Unbuffered, buffered) if kind is Compiled else (io.BytesIO,):
            for coding in ("ASCII", "latin1", "bytes") if has_bytes else ("ASCII",):
                reader = kind(opened(data), encoding=coding)
                try:
                    reader.load()
                    is_ended = True
                except Exception:
                    pass
                asked.update(dict.fromkeys(reader.asked))
    return asked, is_ended


def encoded(pair):
    return tuple(None if it is None else it.encode("utf-8", "surrogatepass") for it in pair)


def difference(data, asked, is_ended):
    """What readers do that isn't told of a front; empty if nothing."""
    found = followed_from(in_memory(io.BytesIO(data)), 0)
    if not found.is_complete:
        return ""
    hidden = {UNKNOWN} if found.has_numbered else set()
    missing = set(map(encoded, asked)).difference(found.names, hidden)
    if UNKNOWN in found.names or found.has_numbered:  # (what is registered may be any text)
        missing = set()
    if missing:
        return f"imports {missing}, told {list(found.names)}"
    return "gets to STOP" if is_ended and not found.is_ended else ""


def compared(count, seed=SEED):
    """Compares fronts; yields each that differs, and at last how many imports there were."""
    chosen, imports = random.Random(seed), 0
    with warnings.catch_warnings():
        warnings.simplefilter("ignore")
        for _ in range(count):
            data = front(chosen)
            asked, is_ended = imported(data)
            said = difference(data, asked, is_ended)
            imports += bool(asked)
            if said:
                yield data, said
    yield b"", str(imports)


def confine():
    """Limits the memory of this process, where that is possible."""
    try:
        import resource

        resource.setrlimit(resource.RLIMIT_AS, (MEMORY, MEMORY))
    except (ImportError, ValueError, OSError):
        pass


def main(count, seed):
    confine()
    *different, (_, imports) = compared(count, seed)
    for data, said in different[:50]:
        print(data[:400], said[:400])
    print(f"{len(different)} of {count} fronts differ; {imports} import something")
    print(f"seed {seed}")
    return bool(different) or int(imports) < count // 10


def cached(value):
    """A file of cachelib, with a time that is text."""
    return b"zzzz" + value


def gdbm(value):
    return struct.pack("<I", 0x13579ACE) + bytes(60) + value + bytes(60)


def lmdb(value):
    return bytes(16) + b"\xde\xc0\xef\xbe" + bytes(60) + value + bytes(60)


def numbers(value):
    """The numbers of a tensor in torch's file, which a program may load nevertheless."""
    made = io.BytesIO()
    with zipfile.ZipFile(made, "w") as archive:
        archive.writestr("a/data.pkl", pickle.dumps(None, 2))
        archive.writestr("a/data/0", value)
    return made.getvalue()


def is_told(data):
    """Whether scan without a list ends with another status than 0."""
    found = reports_of("file", io.BytesIO(data), Question())
    return any(it.severity in (DANGER, UNREADABLE) for report in found for it in report.findings)


class Lenient(unittest.TestCase):
    def test_in_stores_and_caches(self):
        """No value is calm that a reader loads, and which imports what is known to do harm."""
        chosen, runs = random.Random(SEED), 0
        with warnings.catch_warnings():
            warnings.simplefilter("ignore")
            for _ in range(STORED):
                data = b"(0" * chosen.randrange(2) + front(chosen)
                if ("os", "system") not in imported(data, (CompiledAlone, WrittenAlone))[0]:
                    continue
                runs += 1
                files = [cached, numbers]
                # (where these end a value isn't known, so no line is the last; C wants all lines)
                if ("os", "system") in imported(data, (CompiledAlone,))[0]:
                    files += [gdbm, lmdb]
                for made in files:
                    self.assertTrue(is_told(made(data)), (made.__name__, data))
        self.assertGreater(runs, STORED // 40)

    def test_names_whatever_readers_import(self):
        words = [sys.executable, __file__, "--fronts", str(FRONTS)]
        made = dict(os.environ, PYTHONPATH=os.pathsep.join(sys.path), PYTHONMALLOC="default")
        done = subprocess.run(
            words, stdout=subprocess.PIPE, stderr=subprocess.PIPE, env=made, timeout=600
        )
        self.assertEqual(0, done.returncode, (done.stdout, done.stderr[-2000:]))


if __name__ == "__main__":
    if sys.argv[1:2] == ["--fronts"]:
        sys.exit(main(int(sys.argv[2]), int(sys.argv[3]) if sys.argv[3:] else SEED))
    unittest.main()

"""`scan` on files that only some reader takes for a pickle, and on files that none does."""

import bz2
import gzip
import importlib.util
import io
import itertools
import lzma
import pickle
import random
import struct
import subprocess
import sys
import tarfile
import unittest
import zipfile
import zlib

import storklocker
from common import needs
from storklocker.scanning import tars
from storklocker.scanning.judging import Question, reports_of
from storklocker.scanning.names import NOTHING
from test_scanning import GOOD, tarred, zipped

RUNS = b"cposix\nsystem\n(S'echo a hostile pickle ran'\ntR."
EVIL = b"\x80\x02" + RUNS
HDF5 = b"\x89HDF\r\n\x1a\n"
FINDS_UP_TO_NUL = importlib.util.find_spec("os\0x") is not None
"""Whether this Python finds frozen modules, as `os`, by what stands in front of a NUL."""


def reports(data, allow=NOTHING, path="file"):
    return list(reports_of(path, io.BytesIO(data), Question(allow)))


def npy(descr, data, version=1, shape="(1,)"):
    """An array whose header has this type, with these bytes behind it."""
    header = f"{{'descr': {descr}, 'fortran_order': False, 'shape': {shape}, }}".encode()
    length = struct.pack("<H" if version == 1 else "<I", len(header))
    return b"\x93NUMPY" + bytes((version, 0)) + length + header + data


def header(name, size, magic=b"ustar\x0000", number=None, time=b"00000000000\0"):
    """A header of a tar file."""
    made = bytearray(512)
    made[: len(name)] = name
    made[100:124] = b"0000644\0" + b"0000000\0" * 2
    made[124:136], made[136:148] = b"%011o\0" % size, time
    made[148:156], made[156:157] = b" " * 8, b"0"
    made[257 : 257 + len(magic)] = magic
    made[148:156] = (number or (lambda total: b"%06o\0 " % total))(sum(made))
    return bytes(made)


def tar(head, data):
    return head + data + b"\0" * (-len(data) % 512) + b"\0" * 1024


def with_record(comment):
    """A tar file with a header of POSIX in front, which has this comment."""
    made = io.BytesIO()
    headers = {"comment": comment.decode()}
    with tarfile.open(fileobj=made, mode="w", format=tarfile.PAX_FORMAT, pax_headers=headers) as it:
        it.addfile(tarfile.TarInfo("a"))
    return made.getvalue()


def is_finding(data):
    return any(report.is_finding for report in reports(data))


def old_tar(number):
    """A tar file without magic, whose checksum is written like this."""
    return tar(header(b"a", len(EVIL), b"", number), EVIL)


def local(name, data):
    numbers = (20, 0, 0, 0, 0, zlib.crc32(data), len(data), len(data), len(name), 0)
    return struct.pack("<4s5H3L2H", b"PK\3\4", *numbers) + name + data


def central(name, data, at):
    numbers = (20, 3, 20, 0, 0, 0, 0, 0, zlib.crc32(data), len(data), len(data), len(name))
    return struct.pack("<4s4B4HL2L5H2L", b"PK\1\2", *numbers, 0, 0, 0, 0, 0, at) + name


def two_directories():
    """A checkpoint whose directory `zipfile` finds by its size, and torch another by its offset."""
    names, good, data, places = (b"a/data.pkl", b"a/version"), b"", b"", []
    for member in (GOOD, b"3\n", EVIL, b"3\n"):
        places.append(len(data))
        data += local(names[len(places) % 2 == 0], member)
    size = sum(46 + len(name) for name in names)
    shift = size + 22
    for number, member in enumerate((GOOD, b"3\n")):
        good += central(names[number], member, places[number] + shift)
    evil = b"".join(central(names[number], member, places[number + 2])
                    for number, member in enumerate((EVIL, b"3\n")))
    end = struct.pack("<4s4H2LH", b"PK\5\6", 0, 0, 2, 2, size, len(data) + shift, len(evil))
    return data + good + end + evil


def alone(data, **properties):
    filters = [{"id": lzma.FILTER_LZMA1, "dict_size": 4096, **properties}]
    return lzma.compress(data, format=lzma.FORMAT_ALONE, filters=filters)


def sized(packed, data):
    """LZMA alone with its size, in front of the mark of its end."""
    return packed[:5] + len(data).to_bytes(8, "little") + packed[13:]


def is_sized_read():
    """Whether lzma reads on behind both, as since xz 5.2.6."""
    file = io.BytesIO(2 * sized(alone(b"c"), b"c"))
    try:
        return lzma.open(file, format=lzma.FORMAT_ALONE).read() == b"cc"
    except lzma.LZMAError:
        return False


def windowed(data):
    """LZMA alone with a window that readers of any format don't take: they pass it over."""
    return data[:1] + b"\x46\0\x80\0" + data[5:]


def broken_at_its_end(pack):
    """A packed pickle in front of bytes whose last ones are damaged: readers stop at STOP."""
    noise = random.Random(1).getrandbits(8 * 30_000).to_bytes(30_000, "little")
    data = bytearray(pack(b"B" + struct.pack("<I", 9000) + noise[:9000] + b"0" + RUNS + noise))
    data[-6:] = bytes(6)
    return bytes(data)


def zip_in_tar(member):
    """A tar file whose last member is a zip file, with so much behind it that both are found."""
    comment = b"\0" * (-len(member) % 512 + 1024)
    made = io.BytesIO(member)
    with zipfile.ZipFile(made, "a") as archive:
        archive.comment = comment
    data = b"hello\n" + made.getvalue()
    return header(b"readme.txt", len(data) - len(comment)) + data


def legacy(data):
    """torch's file of before its zip files, with this object."""
    front = [pickle.dumps(it, 2) for it in (0x1950A86A20F9469CFC6C, 1001, {"little_endian": True})]
    return b"".join(front) + data + pickle.dumps(["1"], 2) + struct.pack("<q2f", 2, 1, 1)


FONT = b"\x80\x01%c\x15\0\0%%!PS-AdobeFont-1.1: CMR10 1.00B\n%%%%CreationDate: 1992 Feb 19\n"
"""The first bytes of a Type 1 font, which begins like a pickle of protocol 1."""
HOSTILE = {
    "protocol 0": b"\x80\0" + RUNS, "protocol 1": b"\x80\1" + RUNS,
    "an unknown import in front of a fault": b"S'posix'\nS'system'\n\x93S'echo\n\x85R",
    "arrays": npy("'|O'", EVIL), "a type by name": npy("'object'", EVIL),
    "a type with a shape": npy("('object', (1,))", EVIL), "a set": npy("{'aO'}", EVIL),
    "a field by name": npy("[('a', 'object')]", EVIL), "a dict": npy("{'aO': 0}", EVIL),
    "bytes": npy("(b'O', (1,))", EVIL), "npz": zipped(("a.npy", npy("'object'", EVIL))),
    "the second array": npy("'<i8'", bytes(8)) + npy("'|O'", EVIL),
    "a pickle behind an array": npy("'<i8'", bytes(8)) + EVIL,
    "an array behind a pickle": b"I1\n." + npy("'|O'", EVIL),
    "an array behind pickles": b"(dp0\n." * 99 + npy("'|O'", EVIL),
    "a pickle between arrays": npy("'<i8'", bytes(8)) + b"I1\n.N." + npy("'|O'", EVIL),
    "pickles between arrays": (npy("'<i8'", bytes(8)) + b"I1\n.") * 9 + npy("'|O'", EVIL),
    "an empty shape": npy("'<i8'", EVIL, shape="(0, 5)"),
    "a field of nothing": npy("[('a', '<i8', (0,))]", EVIL),
    "ZF": b"ZF" + hex(len(EVIL)).encode().ljust(19) + zlib.compress(EVIL),
    "ZF of Python 2": b"ZF" + hex(len(EVIL)).encode().ljust(20) + zlib.compress(EVIL),
    "two zlib": zlib.compress(b"(") + zlib.compress(b"0" + RUNS),
    "two gzip": gzip.compress(b"") + gzip.compress(EVIL), "lzma": alone(EVIL),
    "gzip, zeros": gzip.compress(b"") + bytes(99) + gzip.compress(EVIL),
    "lzma, odd": alone(EVIL, lc=2, lp=1, pb=2), "two bzip2": bz2.compress(b"") + bz2.compress(EVIL),
    "xz, zeros": lzma.compress(b"") + bytes(4) + lzma.compress(EVIL),
    "a name in tar": tar(header(RUNS, 3), b"hi\n"),
    "a text with a tar header": tar(header(b"X" + struct.pack("<I", 507), 50), b"0" + RUNS),
    "tar, base 256": old_tar(lambda total: b"\x80" + total.to_bytes(7, "big")),
    "tar, no name": tar(header(b"", len(EVIL), b""), EVIL),
    "tar, no name, magic": tar(header(b"", len(EVIL)), EVIL),
    "ZF, signed": b"ZF" + (b"+%x" % len(EVIL)).ljust(19, b"\n") + zlib.compress(EVIL),
    "tar, 0o": old_tar(lambda total: b"0o%o\0\0" % total), "tar, old": old_tar(None),
    "a tar and a zip": zip_in_tar(zipped(("a", EVIL))),
    "an end in front": b"PK\x05\x06" + b"\n" * 18 + zipped(("a.npy", npy("'|O'", EVIL))),
    "the same in tar": tarred(("x.npz", b"PK\x05\x06" + b"\n" * 18 + zipped(("a", EVIL)))),
    "zip in zip": zipped(("x.zip", b"#!sh\n" + zipped(("a", EVIL)))),
    "two directories": two_directories(), "torch": legacy(EVIL),
    "behind torch": legacy(GOOD) + RUNS, "persistent": b"Pabc\n0" + RUNS,
    "a line without its end": b"cposix\nsystemX", "a module alone": b"cposix\n",
    "no line": b"cposixX", "INST without a mark": b"iposix\nsystem\n.",
    "a line across a frame's end": b"\x95\x05\0\0\0\0\0\0\0cbad posix\nsystem\n.",
    "an argument across it that is no text": b"\x95\5\0\0\0\0\0\0\0cpo\xf3" + RUNS[3:],
    "a length across it": b"\x95\3\0\0\0\0\0\0\0X\xff\xff\1\0\0\0a0" + RUNS,
    "the same behind a number": b"I1_0\n0\x95\x05\0\0\0\0\0\0\0cbad posix\nsystem\n.",
    "a long number": b"F" + b" " * 40 + b"-Infinity\n0" + RUNS,
    "a module up to NUL": b"cos\0x\n" + RUNS.partition(b"\n")[2],
    "lzma, a large window": alone(EVIL, dict_size=1 << 29),
    "lzma, another byte in front": alone(EVIL)[:13] + b"\1" + alone(EVIL)[14:],
    "xz behind lzma": alone(b"") + lzma.compress(EVIL),
    "lzma behind xz": lzma.compress(b"(") + alone(b"0" + RUNS),
    "the first xz alone": lzma.compress(b"cposixX") + bytes(4) + lzma.compress(b" is a text\n"),
    "xz before lzma of an odd window": lzma.compress(b"cposixX") + windowed(alone(b" is a text\n")),
    "the first lzma alone": alone(b"cposixX") + bytes(4) + alone(b" is a text\n"),
    "lzma of another window": alone(b"") + b"\0\0\x80" + bytes(15) + alone(EVIL),
    "the first zlib alone": zlib.compress(b"cposixX") + zlib.compress(b" is a text\n"),
    "the first zlib, not the next": zlib.compress(b"cposixX") + broken_at_its_end(zlib.compress),
    "xz behind zeros": bytes(18) + lzma.compress(EVIL),
    "zlib, broken at its end": broken_at_its_end(zlib.compress),
    "lzma, broken at its end": broken_at_its_end(alone),
}


class Readings(unittest.TestCase):
    def test_what_some_reader_runs(self):
        for name, data in HOSTILE.items():
            found = reports(data)
            self.assertTrue(any(report.is_finding for report in found), name)
            for nested in (gzip.compress(data), zipped(("x", data)), tarred(("x", data))):
                self.assertTrue(any(report.is_finding for report in reports(nested)), name)

    def test_what_none_runs(self):
        made = [zipped(("a", GOOD), ("b/", b""), ("c.zip", zipped(("d", b"text")))), legacy(GOOD)]
        made += [tarred(("a", GOOD), ("c.zip", zipped(("d", b"text")))), tarred(("é" * 99, GOOD))]
        made += [npy("'<f8'", bytes(24), shape="(3,)") * 3, npy("[('a', '|S3')]", bytes(3)), b""]
        made += [gzip.compress(GOOD) * 2, bytes(9000), b"PK\x05\x06" + bytes(18), b"BZh", b"x"]
        allow = storklocker.AllowList(
            [("collections", "OrderedDict"), ("datetime", "datetime"), ("torch", "FloatStorage")]
        )
        for data in made:
            found = [it for report in reports(data, allow) for it in report.findings]
            self.assertEqual(found, [], data[:40])

    @needs("module:numpy")
    def test_numpy_loads_pickles_between_arrays(self):
        import numpy

        front = pickle.dumps([1], 0)
        for parts in (
            (numpy.arange(3), front, print), (front, print), (front, front, numpy.arange(3), print),
            (numpy.arange(3), front, front, numpy.arange(2)), (front, numpy.arange(3)),
        ):
            out, last = io.BytesIO(), parts[-1]
            for value in parts:
                if isinstance(value, bytes):
                    out.write(value)
                else:
                    numpy.save(out, numpy.array([print], object) if value is print else value)
            out.seek(0)
            read = [numpy.load(out, allow_pickle=True) for _ in parts]
            self.assertEqual(read[-1].tolist(), [print] if last is print else last.tolist())
            self.assertEqual(is_finding(out.getvalue()), last is print, parts)

    def test_texts(self):
        texts = (
            b"class A: pass\nx = 1\n", b"config = 1\n", b"import os\nprint(1)\n", b"count,a\n1,a\n",
            b"continue\nimport\n", b"from x import y\n", b"Version 1\n. foo", b"(c) 2026\nI1\n.",
            b"cronlog-stubs\ncrontab\ncron-stubs", b"cab\ncabal\ncabbage\ncable\n",
            b"GIT v1.5.2.1 Release Notes\n", b"Ninja\n-----\n\nGenerates\n", b"NNN. Text\n",
            b"cat,dog\ncow\n\xff", b"const\n\n  FONT = 1\n", b"Name\nN.\nThe\nVT is removed.\n",
            b"class Sequential(Module):\n  __parameters__ = []\n",
        )
        for text in texts:
            (found,) = reports(text, None)
            severities = {it.severity for it in found.findings}
            self.assertLessEqual(severities, {"note"}, text)
        self.assertEqual([report.status for report in reports(texts[-1])], ["no pickle"])
        for text in (
            b"cposix\nsystem\nand more", b"cos\0x\nsystem\n.", b"NN.cposix\nsystem\n",
            b"NN.NN." + RUNS,
        ):
            danger = reports(text, None)[0]
            self.assertIn("danger", {it.severity for it in danger.findings})

    def test_fonts(self):
        self.assertEqual([code for code in range(256) if is_finding(FONT % code)], [])

    def test_a_text_that_a_reader_gets_beyond(self):
        text = b"ccollections\nOrderedDict\nI1_0\n0S'posix'\nS'system'\n\x93(S'echo'\ntR."
        self.assertEqual(pickle.loads(text.replace(b"\x93(S'echo'\ntR", b"0")), "posix")
        (found,) = reports(text, None)
        self.assertIn("unreadable", [it.severity for it in found.findings])

    @unittest.skipUnless(FINDS_UP_TO_NUL, "this Python finds modules by their whole names")
    def test_python_finds_frozen_modules_up_to_a_nul(self):
        words = [sys.executable, "-c", "import pickle, sys; pickle.load(sys.stdin.buffer)"]
        ran = subprocess.run(words, input=HOSTILE["a module up to NUL"], stdout=subprocess.PIPE)
        self.assertIn(b"a hostile pickle ran", ran.stdout)

    def test_lzma_and_xz_follow_one_another(self):
        names = ("xz behind lzma", "lzma behind xz", "xz behind zeros", "lzma of another window")
        for name in names:
            self.assertIn(RUNS, lzma.LZMAFile(io.BytesIO(HOSTILE[name])).read(), name)

    def test_two_streams_of_lzma_alone(self):
        """Each with any properties, and with its size or without, in front of the mark of its end.
        """
        made, tried = 0, (False, True) if is_sized_read() else (False,)
        for lc, lp, pb in itertools.product(range(5), repeat=3):
            if lc + lp > 4:
                continue
            for sizes in itertools.product(tried, repeat=2):
                streams = [b"", b""]
                for place, data in enumerate((b"c", RUNS[1:])):
                    packed = alone(data, lc=lc, lp=lp, pb=pb)
                    streams[place] = sized(packed, data) if sizes[place] else packed
                whole = b"".join(streams)
                with lzma.open(io.BytesIO(whole), format=lzma.FORMAT_ALONE) as file:
                    self.assertEqual(file.read(), RUNS)
                with lzma.open(io.BytesIO(whole)) as file:
                    self.assertEqual(file.read(), RUNS)
                found = reports(whole, storklocker.AllowList([]))
                self.assertTrue(any(it.is_finding for it in found), (lc, lp, pb, sizes))
                made += 1
        self.assertEqual(made, 75 * len(tried) ** 2)

    def test_a_tar_file_whose_first_name_looks_like_a_memo_number(self):
        """The line ends where a line feed is in a member: far behind the name."""
        for name in ("m/0.pkl", "abcdp1.bin", "abcdg/text"):
            data = tar(header(name.encode(), 9_000), b"\x01" * 8_999 + b"\n")
            found = reports(data, storklocker.AllowList([]))
            self.assertNotIn("cachelib", {it.kind for it in found}, name)

    def test_lzma_alone_may_begin_with_zeros(self):
        plain = {"id": lzma.FILTER_LZMA1, "lc": 0, "lp": 0, "pb": 0, "dict_size": 1 << 18}
        packed = lzma.compress(RUNS, lzma.FORMAT_ALONE, filters=[plain])
        self.assertEqual(packed[:3], bytes(3))
        nothing = b"]" + bytes(17)  # LZMA alone of no bytes
        self.assertEqual(lzma.decompress(nothing + packed), RUNS)
        self.assertTrue(is_finding(nothing + packed))
        self.assertFalse(is_finding(nothing + bytes(40)))

    def test_readers_get_to_what_is_in_front_of_a_fault(self):
        for name, begin in (("zlib", zlib.decompressobj), ("lzma", lzma.LZMADecompressor)):
            data, made = HOSTILE[f"{name}, broken at its end"], begin()
            with self.assertRaises((zlib.error, lzma.LZMAError, AssertionError)):
                unpacked = b""
                for at in range(0, len(data), 8192):  # as joblib does
                    unpacked += made.decompress(data[at : at + 8192])
                self.fail(f"{name} isn't broken" if made.eof else "it is truncated")
            self.assertIn(RUNS, unpacked)

    def test_imports_in_front_of_a_fault(self):
        front = b"\x80\x04ccollections\nOrderedDict\n)R(cos\nsystem\n(Vecho\ntR"
        framed = b"\x80\x04\x95\xff\0\0\0\0\0\0\0" + front[2:] + b"\xff"
        for data in (front + b"\xff.", front, framed):
            for allow in (NOTHING, None):
                (found,) = reports(data, allow)
                self.assertEqual(found.imports, (("collections", "OrderedDict"), ("os", "system")))
        (found,) = reports(b"I1_0\n0" + RUNS)
        self.assertEqual(found.missing, (("posix", "system"),))

    def test_two_readings_are_told(self):
        found = reports(zip_in_tar(zipped(("a", EVIL))))
        why = [it.why for report in found for it in report.findings]
        self.assertIn("it can be read as tar and as zip", why)
        good = zipped(("a", GOOD))
        for data in (good + b"x", b"#!x\n" + good, gzip.compress(GOOD) + b"x"):
            self.assertTrue(any(report.is_finding for report in reports(data)), data[-9:])

    def test_two_readings_of_listed_names(self):
        """Where a reader begins or ends elsewhere, the list may permit what another one reads."""
        name, allow = b"ccollections\nOrderedDict\n.", storklocker.AllowList(
            [("collections", "OrderedDict")]
        )
        self.assertEqual(reports(name, allow)[0].status, "accepted")
        streams = [lzma.compress(name[:7]), bytes(4), lzma.compress(name[7:])]
        framed = name[:-1] + b"0cpo\xf3"
        across = b"\x95" + struct.pack("<Q", len(framed)) + framed + RUNS[3:]
        for data in (npy("'?'", name), b"".join(streams), across):
            self.assertTrue(any(report.is_finding for report in reports(data, allow)), data)
        self.assertFalse(any(it.is_finding for it in reports(npy("'|b1'", b"x" + name), allow)))

    def test_broken_tar_files(self):
        broken = bytearray(tarred(("a", b"N."), ("b", RUNS)))
        broken[1024 + 148] ^= 1
        junk = header(b"a", 2) + b"N.".ljust(512, b"\0")
        junk += tar(header(b"b", len(RUNS), time=b"z" * 12), RUNS)
        for data in (bytes(broken), junk, tarred(("a", b"N."))[:700]):
            self.assertIn("unreadable", [report.status for report in reports(data)])

    def test_lzma_with_impossible_properties(self):
        made = io.BytesIO()
        with zipfile.ZipFile(made, "w", zipfile.ZIP_LZMA) as archive:
            archive.writestr("a", GOOD)
        data = bytearray(made.getvalue())
        data[30 + 1 + 4] = 8 + 9 * 4  # in all, at most 4 bits
        found = reports(bytes(data) + zipped(("b", EVIL)))
        self.assertIn("refused", [report.status for report in found])
        self.assertIn("unreadable", [report.status for report in found])

    def test_a_tarfile_that_is_not_known_here(self):
        """Reading fails closed where `tarfile` doesn't call what is overridden."""
        kept, tars._Header.fromtarfile = tars._Header.fromtarfile, tarfile.TarInfo.fromtarfile
        try:
            found = reports(tarred(("a", b"N.")))
        finally:
            tars._Header.fromtarfile = kept
        self.assertIn("unreadable", [report.status for report in found])

    def test_records_of_tar_headers(self):
        for comment, is_odd in ((b"1" * 40, False), (b"a\n=" * 999, False), (b"1" * 99, True)):
            self.assertEqual(is_finding(with_record(comment)), is_odd)
        honest = with_record(b"text")
        self.assertIn(b"16 comment=text\n", honest)
        for record in (b"16 comment text\n", b"16=comment=text\n", b"17 comment=text\n",
                       b"16 =omment=text\n", b"00 comment=text\n", b"15 comment=text\n"):
            self.assertTrue(is_finding(honest.replace(b"16 comment=text\n", record)), record)


if __name__ == "__main__":
    unittest.main()

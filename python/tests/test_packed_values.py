"""`scan` on values that a program packs, or spells in letters, before SQLite keeps them."""

import base64
import bz2
import dbm.dumb
import gzip
import hashlib
import itertools
import json
import lzma
import pathlib
import pickle
import quopri
import random
import sqlite3
import struct
import sys
import tempfile
import unittest
import unittest.mock
import urllib.parse
import zlib

from storklocker import AllowList
from storklocker.scanning.file import File
from storklocker.scanning.judging import Question
from storklocker.scanning.one_file import scan_file
from storklocker.scanning.severity import UNREADABLE
from test_readings import reports

EVIL = (
    b"\x80\x04\x8c\x08colorsys\x8c\x0argb_to_hls\x93(K\0K\0K\0tR.",
    b"\x80\x02ccolorsys\nrgb_to_hls\nK\0K\0K\0\x87R.",
    b"ccolorsys\nrgb_to_hls\n(I0\nI0\nI0\ntR.",
)
HONEST = tuple(pickle.dumps(["text", 1.5, {"k": (1,)}] * 9, protocol) for protocol in range(5))
MIDDLE = 7
"""After so many letters others are put in."""


def small_window(data, size=9):
    packer = zlib.compressobj(9, zlib.DEFLATED, size)
    return packer.compress(data) + packer.flush()


def stray(letters, others):
    return letters[:MIDDLE] + others + letters[MIDDLE:]


def signed(data):
    """A session as Django signs it."""
    packed = base64.urlsafe_b64encode(zlib.compress(data)).rstrip(b"=")
    return b".%b:1abcde:%b" % (packed, b"s" * 43)


def of_signed(value):
    text = value[1:].split(b":")[0]
    return zlib.decompress(base64.urlsafe_b64decode(text + b"=" * (-len(text) % 4)))


def of_body(value):
    return base64.b64decode(json.loads(value)["body"])


def twice(pack):
    return lambda data: pack(data[:5]) + pack(data[5:])


def of_named(value):
    return zlib.decompress(value.partition(b":")[2])


def dice_of(size):
    """Bytes that nothing packs."""
    chosen = random.Random(1)
    return bytes(chosen.randrange(256) for _ in range(size))


def raw(data):
    packer = zlib.compressobj(wbits=-15)
    return packer.compress(data) + packer.flush()


B64, UN64 = base64.b64encode, base64.b64decode
FORMS = {
    "Base64": (B64, UN64),
    "other bytes between": (lambda data: stray(B64(data), b"!*\0\x80 "), UN64),
    "other bytes first": (lambda data: b"\n $" + B64(data), UN64),
    "other bytes everywhere": (lambda data: b"!".join(B64(data)[at : at + 1] for at in range(
        len(B64(data)))), UN64),
    "letters of addresses between": (lambda data: stray(B64(data), b"-_"), UN64),
    "behind the end": (lambda data: B64(data + bytes((1 - len(data)) % 3)) + b"AAAA", UN64),
    "for addresses": (base64.urlsafe_b64encode, base64.urlsafe_b64decode),
    "lines": (base64.encodebytes, base64.decodebytes),
    "twice": (lambda data: B64(B64(data)), lambda value: UN64(UN64(value))),
    "bzip2": (lambda data: B64(bz2.compress(data)), lambda value: bz2.decompress(UN64(value))),
    "Base16": (lambda data: data.hex().encode(), lambda value: bytes.fromhex(value.decode())),
    "Base16, spaces": (
        lambda data: b" ".join(b"%02x" % it for it in data),
        lambda value: bytes.fromhex(value.decode()),
    ),
    "zlib": (zlib.compress, zlib.decompress),
    "zlib, small": (small_window, zlib.decompress),
    "gzip, two": (twice(gzip.compress), gzip.decompress),
    "bzip2, two": (twice(bz2.compress), bz2.decompress),
    "xz": (lzma.compress, lzma.decompress),
    "LZMA": (lambda data: lzma.compress(data, lzma.FORMAT_ALONE), lzma.decompress),
    "signed": (signed, of_signed),
    "hashed": (
        lambda data: B64(hashlib.sha1(data).hexdigest().encode() + b":" + data),
        lambda value: UN64(value).split(b":", 1)[1],
    ),
    "Base32": (base64.b32encode, base64.b32decode),
    "Base85": (base64.b85encode, base64.b85decode),
    "Ascii85": (base64.a85encode, base64.a85decode),
    "Ascii85 of Adobe": (
        lambda data: base64.a85encode(data, adobe=True),
        lambda value: base64.a85decode(value, adobe=True),
    ),
    "Base85, zlib": (
        lambda data: base64.b85encode(zlib.compress(data)),
        lambda value: zlib.decompress(base64.b85decode(value)),
    ),
    "quoted-printable": (quopri.encodestring, quopri.decodestring),
    "percent": (
        lambda data: urllib.parse.quote(data).encode(), urllib.parse.unquote_to_bytes
    ),
    "JSON": (lambda data: json.dumps({"n": 1, "body": B64(data).decode()}).encode(), of_body),
    "a character for a byte": (
        lambda data: data.decode("latin-1").encode(), lambda value: value.decode().encode("latin-1")
    ),
}
"""How each is made, and how a program reads it."""


def is_read_behind_the_end():
    """Whether this Python reads Base64 behind its end, as some versions of 3.13 don't."""
    try:
        return UN64(B64(b"a") + b"AAAA") == b"a\0\0\0"
    except ValueError:
        return False


if not is_read_behind_the_end():
    del FORMS["behind the end"]
BEHIND = {
    "Base64 behind a length": (
        lambda data: bytes((1, 0, 7)) + B64(data), lambda value: UN64(value[3:])
    ),
    "zlib behind a name": (lambda data: b"zlib:" + zlib.compress(data), of_named),
    "gzip behind a number": (
        lambda data: bytes(8) + gzip.compress(data), lambda value: gzip.decompress(value[8:])
    ),
}
"""What has more in front of it."""


class Packed(unittest.TestCase):
    def setUp(self):
        made = tempfile.TemporaryDirectory()
        self.addCleanup(made.cleanup)
        self.path = pathlib.Path(made.name) / "base"

    def base(self, values, encoding="UTF-8"):
        """A database with these values: texts, where they are some."""
        if self.path.exists():
            self.path.unlink()
        base = sqlite3.connect(str(self.path))
        base.execute("pragma synchronous = off")
        base.execute(f"pragma encoding = '{encoding}'")
        base.execute("create table kept (value)")
        base.executemany("insert into kept values (?)", [(it,) for it in map(text_of, values)])
        base.commit()
        base.close()
        return self.path.read_bytes()

    def test_hostile_ones_are_found(self):
        for name, (pack, unpack) in FORMS.items():
            for data in EVIL:
                self.assertTrue(unpack(pack(data)).startswith(data), name)
                for encoding in ("UTF-8", "UTF-16le"):
                    found = reports(self.base([b"text", pack(data)], encoding), AllowList([]))
                    names = {it for report in found for it in report.imports}
                    self.assertIn(("colorsys", "rgb_to_hls"), names, (name, data, encoding))

    def test_what_stands_behind_something(self):
        """Also in a value that is too long for a page."""
        for name, (pack, unpack) in BEHIND.items():
            for data, fill in itertools.product(EVIL, (b"", dice_of(20_000))):
                value = data[:-1] + b"0B" + len(fill).to_bytes(4, "little") + fill + b"."
                value = pack(value if fill else data)
                self.assertTrue(unpack(value).startswith(data[:-1]), name)
                found = reports(self.base([b"text", value, pack(HONEST[4])]), AllowList([]))
                names = {it for report in found for it in report.imports}
                self.assertIn(("colorsys", "rgb_to_hls"), names, (name, data))
            found = reports(self.base([*map(pack, HONEST)]), AllowList([]))
            self.assertFalse(any(it.is_finding for it in found), (name, found[:3]))

    def test_deflated_ones_without_a_header(self):
        """Of protocol 2 and later: any bytes may begin so."""
        for data in EVIL[:2]:
            self.assertEqual(zlib.decompress(raw(data), -15), data)
            found = reports(self.base([b"text", raw(data)]), AllowList([]))
            names = {it for report in found for it in report.imports}
            self.assertIn(("colorsys", "rgb_to_hls"), names, data)
        found = reports(self.base([raw(it) for it in HONEST]), AllowList([]))
        self.assertFalse(any(it.is_finding for it in found), found[:3])

    def test_stores_that_are_looked_through(self):
        """Values whose letters aren't one run, or which are spelled in others, are told by SQLite
        alone.
        """
        for name, (pack, unpack) in {**FORMS, **BEHIND}.items():
            for make in (in_zodb, in_gdbm, in_dumb) if name not in IN_SQLITE else ():
                for data in EVIL[:2]:
                    self.assertTrue(unpack(pack(data)).startswith(data), name)
                    found = make([b"text", pack(data), HONEST[4]], AllowList([]))
                    names = {it for report in found for it in report.imports}
                    self.assertIn(("colorsys", "rgb_to_hls"), names, (name, make, data))
                found = make([b"text", *map(pack, HONEST)], AllowList([]))
                self.assertFalse(any(it.is_finding for it in found), (name, found[:3]))

    def test_lzma_alone_of_any_properties(self):
        for lc, lp, pb, window in ((0, 0, 0, 4096), (3, 0, 2, 0xFF0000), (1, 2, 3, 1 << 16)):
            words = {"id": lzma.FILTER_LZMA1, "lc": lc, "lp": lp, "pb": pb, "dict_size": window}
            packed = lzma.compress(EVIL[0], lzma.FORMAT_ALONE, filters=[words])
            for value in (packed, packed[:1] + b"\0\0\x18\0" + packed[5:]):
                self.assertEqual(lzma.decompress(value, lzma.FORMAT_ALONE), EVIL[0])
                for make in (in_zodb, in_gdbm, in_dumb):
                    found = make([b"text", value], AllowList([]))
                    names = {it for report in found for it in report.imports}
                    self.assertIn(("colorsys", "rgb_to_hls"), names, (value, make))

    def test_honest_ones_are_no_finding(self):
        for name, (pack, _) in FORMS.items():
            found = reports(self.base([pack(data) for data in HONEST]), AllowList([]))
            self.assertFalse(any(it.is_finding for it in found), (name, found[:3]))

    def test_what_looks_like_letters(self):
        chosen = random.Random(1)
        words = [
            "".join(chosen.choice("gAcYQKetaoinshrdlu ") for _ in range(chosen.randrange(99)))
            for _ in range(3_000)
        ]
        blobs = [bytes(chosen.randrange(256) for _ in range(99)) for _ in range(1_000)]
        texts = [it.encode() for it in words] + [B64(it) for it in blobs] + blobs
        for encoding in ("UTF-8", "UTF-16be"):
            found = reports(self.base(texts, encoding), AllowList([]))
            self.assertFalse(any(it.is_finding for it in found), found[:3])

    def test_what_this_python_lacks_is_told(self):
        for name, value in (("bz2", bz2.compress(EVIL[0])), ("lzma", lzma.compress(EVIL[0]))):
            data = self.base([value])
            with unittest.mock.patch.dict(sys.modules, {name: None}):
                found = reports(data, AllowList([]))
            told = [it.kind for report in found for it in report.findings]
            self.assertIn("unread-pickles", told, name)

    def test_what_is_not_unpacked_is_told(self):
        packed = struct.pack("<BBHLLL", 2, 1, 1, 40, 40, 30) + bytes(14)
        for value in (b"\x28\xb5\x2f\xfd" + bytes(9), b"\x04\x22\x4d\x18" + bytes(9), packed):
            found = reports(self.base([b"text", value, value]), AllowList([]))
            told = [it for report in found for it in report.findings]
            self.assertEqual([it.kind for it in told], ["unread-pickles"], value)
            self.assertEqual({it.severity for it in told}, {UNREADABLE}, value)


IN_SQLITE = (
    *(it for it in FORMS if it.startswith(("other bytes", "letters of", "Base32", "Base85"))),
    *("Ascii85", "Ascii85 of Adobe", "quoted-printable", "percent", "a character for a byte"),
    *("Base16, spaces", "behind the end"),
)


def in_zodb(values, allow):
    return reports(b"FS21" + bytes(40) + b"\0\1 ".join(values) + b"\0", allow)


def in_gdbm(values, allow):
    return reports(b"\xce\x9a\x57\x13" + bytes(60) + b"\0key\0".join(values) + b"\0", allow)


def in_dumb(values, allow):
    with tempfile.TemporaryDirectory() as folder:
        path = pathlib.Path(folder, "base")
        with dbm.dumb.open(str(path), "n") as base:
            for number, data in enumerate(values):
                base[b"key %d" % number] = data
        return list(scan_file(File(str(path.with_suffix(".dat"))), Question(allow)))


def text_of(data):
    """A text, where the bytes are one."""
    try:
        return data.decode()
    except UnicodeDecodeError:
        return data


if __name__ == "__main__":
    unittest.main()

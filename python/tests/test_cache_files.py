"""`scan` on files of caches, in which a value stands behind the time at which it ends."""

import io
import os
import pathlib
import pickle
import random
import struct
import tempfile
import time
import unittest
import unittest.mock
import zlib

from common import needs
from storklocker import AllowList
from storklocker.scanning import lenient, recognized, spelled
from test_readings import EVIL, RUNS, reports


class Asks:
    """Something whose pickle asks for a name."""

    def __reduce__(self):
        return (os.getpid, ())


HONEST = ({"a": [1, 2.5, "text"]}, None, b"bytes" * 99, "a text")
UNJUDGED = b"\x8c\x08colorsys\x940\x8c\x0argb_to_hls\x940h\0h\1\x93(K\0K\0K\0tR."


class CacheFiles(unittest.TestCase):
    def check(self, data, is_evil, kind):
        found = reports(data, AllowList([]))
        self.assertEqual(any(it.is_finding for it in found), is_evil, found)
        self.assertIn(kind, {it.kind for it in found})
        alone = [it.severity for report in reports(data, None) for it in report.findings]
        self.assertEqual(bool(alone), is_evil, alone)

    def made_by(self, name, save, load):
        """Checks the files in a folder that a cache has filled, and that its reader loads."""
        for value in (*HONEST, Asks()):
            with tempfile.TemporaryDirectory() as folder:
                is_evil = isinstance(value, Asks)
                save(folder, value)
                self.assertEqual(load(folder), os.getpid() if is_evil else value)
                read = [it.read_bytes() for it in pathlib.Path(folder).rglob("*") if it.is_file()]
                found = [it for data in read for it in reports(data, AllowList([]))]
                self.assertEqual(any(it.is_finding for it in found), is_evil, (name, found))

    @needs("module:cachelib")
    def test_cachelib(self):
        from cachelib import FileSystemCache

        def save(folder, value):
            FileSystemCache(folder).set("key", value, timeout=300)

        self.made_by("cachelib", save, lambda folder: FileSystemCache(folder).get("key"))

    @needs("module:django")
    def test_django(self):
        from django.conf import settings
        from django.core.cache.backends.filebased import FileBasedCache

        if not settings.configured:
            settings.configure()

        def save(folder, value):
            FileBasedCache(folder, {}).set("key", value, timeout=300)

        self.made_by("Django", save, lambda folder: FileBasedCache(folder, {}).get("key"))

    def test_values_behind_a_time(self):
        values = [(pickle.dumps(value, 4), False) for value in HONEST]
        values += [(EVIL, True), (RUNS, True), (UNJUDGED, True), (b"\x80\x04" + UNJUDGED, True)]
        for value, is_evil in values:
            for front in (0, int(time.time()), 0x4B80):
                self.check(struct.pack("I", front) + value, is_evil, "cachelib")
            for front in (time.time(), None):
                for protocol in (2, 4):
                    data = pickle.dumps(front, protocol) + zlib.compress(value)
                    self.check(data, is_evil, "zlib")

    def test_long_pickles_in_front_of_a_packed_value(self):
        """Of any form that Django's reader takes for a time."""
        packers = [zlib.compressobj(9, zlib.DEFLATED, window) for window in (9, 14, 15)]
        for packer in packers:
            packed = packer.compress(pickle.dumps(Asks(), 2)) + packer.flush()
            for front in (
                b"N0" * 50 + b"I99999999999\n.", b"V" + b"a" * 999 + b"\n0I99999999999\n.",
                b"I99999999999\n.", b"V" + b"a" * 999 + b"\nI99999999999\n.", b"N.",
            ):
                file = io.BytesIO(front + packed)
                self.assertIn(pickle.load(file), (None, 99_999_999_999))
                self.assertEqual(pickle.loads(zlib.decompress(file.read())), os.getpid())
                found = reports(front + packed, AllowList([]))
                self.assertTrue(any(it.is_finding for it in found), front[:9])

    def test_a_time_that_covers_the_value(self):
        """From the first byte on it is one pickle without an import."""
        value = EVIL.ljust(200)
        data = b"\x80\x04C\xc8" + value + b"."
        self.assertEqual(pickle.loads(data), value)
        self.check(data, True, "cachelib")

    def test_a_frame_that_ends_inside_an_argument(self):
        """A reader of files drops what a long frame has of it; so does one of a shelf."""
        fill = b"B" + (9_000).to_bytes(4, "little") + bytes(9_000) + b"0X\xff\xf3"
        hidden = b"\2\0\0\0ab0S'\\x6fs'\nS'getpid'\n\x93)R."
        value = b"\x80\4\x95" + len(fill).to_bytes(8, "little") + fill + hidden
        self.assertEqual(pickle.load(io.BytesIO(value)), os.getpid())
        self.check(bytes(4) + value, True, "cachelib")

    def test_what_is_no_cache(self):
        rows = pickle.dumps(None, 2) + pickle.dumps([1], 4)
        for data in (
            b"    import os\nprint(1)\n", b"\x7fELF\x02\x01\x01" + bytes(99), bytes(99), rows,
            b"abc\ncats\ndogs\n", b"RIFF\x80\x04\x95\0WAVE" + bytes(99), b"\0\0\0\0", b"1234.",
            b"# doctest\nr''' Test of the format.\n",
        ):
            found = reports(data, AllowList([]))
            self.assertFalse(any(it.is_finding for it in found), data)
            self.assertNotIn("cachelib", {it.kind for it in found})

    def test_a_line_that_is_not_read_to_its_end(self):
        """A NUL ends the name of a module, which only one of Python itself can have."""
        zeros = bytes(1 << 18) + b"a"
        for front, is_found, is_told in (
            (b"m0.pickle\0", lenient.is_found_here, False),
            (b"m0.pickle\0", lambda word: True, True),  # the control
            (b"m0.pios\0", lenient.is_found_here, True),
        ):
            with unittest.mock.patch.object(spelled, "_LINE", 1 << 10), unittest.mock.patch.object(
                lenient, "is_found_here", is_found
            ):
                found = reports(front + zeros, AllowList([]))
            self.assertEqual([it.kind for it in found] == ["cachelib"], is_told, found)


class Soon(unittest.TestCase):
    """What the first bytes say soon is what all of them say."""

    def test_texts(self):
        chosen = random.Random(7)
        kinds = (b"a \n\t", b"a\r\f\x85", "\x85\xa0é".encode(), bytes(range(256)))
        fronts = [bytes(chosen.choices(kind, k=8)) for kind in kinds for _ in range(500)]
        fronts += [b"a" * at + bytes([code]) for at in (0, 255, 256) for code in range(256)]
        said = [recognized.is_text(front) for front in fronts]
        with unittest.mock.patch.object(recognized, "_SOON", 0):
            self.assertEqual(said, [recognized.is_text(front) for front in fronts])
        self.assertEqual({*said}, {False, True})


if __name__ == "__main__":
    unittest.main()

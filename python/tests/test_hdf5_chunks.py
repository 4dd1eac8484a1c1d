"""`scan` on chunks of HDF5 and zarr that are packed, each with its reader as the control."""

import io
import itertools
import os
import pathlib
import pickle
import random
import tempfile
import unittest
import unittest.mock
import zlib

from common import needs
from storklocker import AllowList
from storklocker.scanning import hdf5_chunks
from storklocker.scanning.judging import Question, reports_of
from storklocker.scanning.severity import DANGER, REFUSED, UNREADABLE

EVIL = pickle.dumps(os.system, 4)
EVIL_TEXT = pickle.dumps(os.system, 0)
"""Of seven bits: HDF5 1.14.5 can't read numbers that `scaleoffset` leaves as they are."""
GOOD = pickle.dumps(["text", 1], 4)
READ = ({"compression": "gzip"}, {"compression": "gzip", "compression_opts": 0})
SZIP = {"compression": "szip", "compression_opts": ("nn", 4)}
OTHERS = ({"compression": "lzf"}, SZIP, {"scaleoffset": 0}, {"fletcher32": True})
ADDED = ({}, {"shuffle": True}, {"fletcher32": True}, {"shuffle": True, "fletcher32": True})


def severities(path, allow=None):
    with open(path, "rb") as file:
        found = list(reports_of("file.h5", file, Question(allow)))
    return {it.severity for report in found for it in report.findings}


class Chunks(unittest.TestCase):
    def setUp(self):
        folder = tempfile.TemporaryDirectory()
        self.addCleanup(folder.cleanup)
        self.path = str(pathlib.Path(folder.name) / "file.h5")

    def made(self, value, kind, chunk, form, words):
        """Writes a pickle as numbers of a kind, in chunks of so many. Returns what h5py reads."""
        import h5py
        import numpy

        width = numpy.dtype(kind).itemsize
        data = numpy.frombuffer(value + bytes(-len(value) % width), kind)
        with h5py.File(self.path, "w", libver=form) as file:
            file.create_dataset("a", data=data, chunks=(chunk or len(data),), **words)
        with h5py.File(self.path, "r") as file:
            return file["a"][:].tobytes()

    def check(self, expected, kinds=("u1", "<u4"), chunks=(0, 4), filters=READ, value=EVIL):
        import h5py

        forms = ("earliest", "latest")
        added = ADDED if filters is READ else ADDED[:1]
        for kind, chunk, form, one, more in itertools.product(kinds, chunks, forms, filters, added):
            words = {**one, **more}
            if one is SZIP and not h5py.h5z.filter_avail(h5py.h5z.FILTER_SZIP):
                continue
            with self.subTest(kind=kind, chunk=chunk, form=form, words=words):
                self.assertTrue(self.made(value, kind, chunk, form, words).startswith(value))
                found = severities(self.path), severities(self.path, AllowList([]))
                self.assertTrue(expected(*found), found)

    @needs("module:h5py")
    def test_what_deflate_has_packed_is_read(self):
        self.check(lambda open, listed: DANGER in open and REFUSED in listed)
        self.check(lambda open, listed: not (open or listed), value=GOOD)

    @needs("module:h5py")
    def test_other_filters_are_told(self):
        def told(*found):
            return all(UNREADABLE in it for it in found)

        self.check(told, filters=OTHERS, value=EVIL_TEXT)
        self.check(told, kinds=("<u4",), filters=({"shuffle": True},))

    @needs("module:h5py")
    def test_numbers_are_no_finding(self):
        import h5py
        import numpy

        random = numpy.random.RandomState(1)
        with h5py.File(self.path, "w") as file:
            for number, kind in enumerate(("u1", "<i2", "<i4", "<f4", "<f8")):
                data = (random.rand(100_000) * 250).astype(kind)
                file.create_dataset(str(number), data=data, compression="gzip", shuffle=True)
                file.create_dataset(f"{number} plain", data=data)
            file.create_dataset("zeros", data=numpy.zeros(20_000_000), compression="gzip")
        self.assertEqual(severities(self.path), set())

    @needs("module:h5py")
    def test_chunks_out_of_order(self):
        """As a program writes them that has the last ones ready first, perhaps unpacked."""
        dice = random.Random(1)
        grown = {"fixed": None, "one way": (None,), "two ways": (None, None)}
        for form, (growth, most), words, size in itertools.product(
            ("earliest", "latest"), grown.items(), ({}, READ[0], {**READ[0], "shuffle": True}),
            (len(EVIL), 6_000),
        ):
            with self.subTest(form=form, growth=growth, words=words, size=size):
                value = EVIL.rjust(size, b"\0") if size > len(EVIL) else EVIL
                self.scattered(value + bytes(-len(value) % 16), form, most, words, dice)
                self.assertIn(DANGER, severities(self.path))
                self.assertIn(REFUSED, severities(self.path, AllowList([])))
                with unittest.mock.patch.object(hdf5_chunks, "datasets_in", lambda *_: ()):
                    self.assertEqual(severities(self.path), set())  # (the control)

    def scattered(self, value, form, most, words, dice):
        """Writes a pickle as numbers, the last first, in chunks of four that are packed by chance.
        """
        import h5py
        import numpy

        kind, in_front = numpy.dtype("<u4"), (0,) * (len(most or "x") - 1)
        shape = (1,) * len(in_front) + (len(value) // 4,)
        with h5py.File(self.path, "w", libver=form) as file:
            made = file.create_dataset(
                "a", shape, kind, maxshape=most, chunks=(1,) * len(in_front) + (4,), **words
            )
            for place in reversed(range(0, len(value) // 4, 4)):
                data, mask = value[4 * place : 4 * place + 16], dice.randrange(4)
                if "shuffle" in words and not mask & 1:
                    data = numpy.frombuffer(data, "u1").reshape(-1, 4).T.tobytes()
                if words and not mask & 1 << ("shuffle" in words):
                    data = zlib.compress(data)
                made.id.write_direct_chunk((*in_front, place), data, mask if words else 0)
        with h5py.File(self.path, "r") as file:
            self.assertEqual(file["a"][()].tobytes(), value)

    @needs("module:h5py")
    def test_values_of_any_length(self):
        import h5py
        import numpy

        for form, words in itertools.product(("earliest", "latest"), ({}, READ[0])):
            for value, expected in ((EVIL, {DANGER}), (GOOD, set())):
                with h5py.File(self.path, "w", libver=form) as file:
                    kind = h5py.vlen_dtype("u1")
                    made = file.create_dataset("a", (9,), kind, chunks=(2,), **words)
                    made[7] = numpy.frombuffer(value, "u1")
                with h5py.File(self.path, "r") as file:
                    self.assertEqual(file["a"][7].tobytes(), value)
                self.assertEqual(severities(self.path) & {DANGER, UNREADABLE}, expected)

    @needs("module:tables")
    def test_filters_of_pytables(self):
        import numpy
        import tables

        for name, expected in (("zlib", DANGER), ("bzip2", UNREADABLE), ("blosc", UNREADABLE)):
            if not tables.which_lib_version(name):
                continue
            filters = tables.Filters(complevel=5, complib=name)
            with tables.open_file(self.path, "w") as file:
                shape = (len(EVIL),)
                made = file.create_carray("/", "a", tables.UInt8Atom(), shape, filters=filters)
                made[:] = numpy.frombuffer(EVIL, "u1")
            with tables.open_file(self.path) as file:
                self.assertIs(pickle.loads(file.root.a[:].tobytes()), os.system)
            self.assertIn(expected, severities(self.path), name)

    @needs("module:tables", "module:pandas")
    def test_a_column_of_objects(self):
        import pandas

        for value, is_evil in ((os.system, True), (1, False)):
            for words in ({}, {"complevel": 5, "complib": "zlib"}):
                pandas.DataFrame({"a": ["text", value]}).to_hdf(self.path, "a", mode="w", **words)
                self.assertIs(pandas.read_hdf(self.path, "a")["a"][1], value)
                self.assertEqual(DANGER in severities(self.path), is_evil)
                self.assertEqual(severities(self.path) == set(), not is_evil)


class Blosc(unittest.TestCase):
    @needs("module:numcodecs")
    def test_chunks_of_zarr_are_told(self):
        from numcodecs import Blosc

        for name in ("blosclz", "lz4", "lz4hc", "zlib", "zstd"):
            for shuffle in (0, 1, 2):
                for data in (EVIL, pickle.dumps([os.system, "text" * 999])):
                    packed = Blosc(name, shuffle=shuffle)
                    made = bytes(packed.encode(data))
                    for whole in (made, made + b"more"):
                        self.assertEqual(bytes(packed.decode(whole)), data)
                        found = list(reports_of("0.0", io.BytesIO(whole), Question()))
                        self.assertEqual([it.kind for it in found], ["Blosc"])
                        self.assertEqual([it.status for it in found], ["unreadable"])


if __name__ == "__main__":
    unittest.main()

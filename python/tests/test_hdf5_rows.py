"""`scan` on values of HDF5 that lie in rows across chunks, or in other files: each is read by h5py,
which is the control.
"""

import io
import itertools
import os
import pathlib
import pickle
import tempfile
import unittest

from common import needs
from storklocker.scanning.judging import Question, reports_of

EVIL, ROW = pickle.dumps((os.system, "x" * 90), 4), 5
PACKED = ({}, {"compression": "gzip"}, {"compression": "gzip", "shuffle": True})
MORE = ({}, {"maxshape": (None, None)}, {"maxshape": (None, len(EVIL))})


def found_in(path):
    """The words of the reports on a file, and the kinds of findings."""
    reports = list(reports_of("file.h5", io.BytesIO(path.read_bytes()), Question()))
    kinds = {finding.kind for report in reports for finding in report.findings}
    return {report.status.value for report in reports}, kinds


@needs("module:h5py")
class Rows(unittest.TestCase):
    def setUp(self):
        import numpy

        folder = tempfile.TemporaryDirectory()
        self.addCleanup(folder.cleanup)
        self.folder = pathlib.Path(folder.name)
        self.path, self.value = self.folder / "file.h5", numpy.frombuffer(EVIL, "u1")

    def load(self, *index):
        """What h5py reads at a place, loaded."""
        import h5py

        with h5py.File(self.path, "r") as file:
            return pickle.loads(file["x"][index].tobytes())

    def test_rows_across_chunks(self):
        import h5py
        import numpy

        noise = numpy.random.RandomState(1).randint(0, 256, 8 * len(EVIL)).astype("u1")
        for form, words, more, chunk in itertools.product(
            ("earliest", "latest"), PACKED, MORE, ((1, 16), (4, 16), (8, 7), (3, 50))
        ):
            for value, is_found in ((self.value, True), (noise[: len(EVIL)], False)):
                data = noise.reshape(8, -1).copy()
                data[ROW] = value
                with h5py.File(self.path, "w", libver=form, userblock_size=512) as file:
                    file.create_dataset("x", data=data, chunks=chunk, **words, **more)
                with self.subTest(form=form, words=words, more=more, chunk=chunk):
                    self.assertEqual("dangerous-import" in found_in(self.path)[1], is_found)
                    if is_found:
                        self.assertEqual(self.load(ROW)[0], os.system)

    def test_rows_of_several_dimensions(self):
        import h5py
        import numpy

        data = numpy.zeros((3, 4, len(EVIL)), "u1")
        data[1, 2] = self.value
        for form in ("earliest", "latest"):
            with h5py.File(self.path, "w", libver=form) as file:
                file.create_dataset("x", data=data, chunks=(2, 2, 9))
            self.assertEqual(self.load(1, 2)[0], os.system)
            self.assertIn("dangerous-import", found_in(self.path)[1])

    def test_virtual_datasets(self):
        import h5py

        layout = h5py.VirtualLayout(shape=(len(EVIL),), dtype="u1")
        with h5py.File(self.path, "w", libver="latest") as file:
            for number in range(2):
                half = file.create_dataset(str(number), data=self.value[number::2])
                layout[number::2] = h5py.VirtualSource(".", str(number), shape=half.shape)
            file.create_virtual_dataset("x", layout)
        self.assertEqual(self.load()[0], os.system)
        self.assertEqual(found_in(self.path), ({"unreadable"}, {"unread-pickles"}))

    def test_values_in_other_files(self):
        import h5py

        parts = [(str(self.folder / str(number)), 0, 50) for number in range(3)]
        for number, (name, _, size) in enumerate(parts):
            part = EVIL[number * size :][:size]
            pathlib.Path(name).write_bytes(part.ljust(size, b"\0"))
        with h5py.File(self.path, "w") as file:
            file.create_dataset("x", shape=(150,), dtype="u1", external=parts)
        self.assertEqual(self.load()[0], os.system)
        self.assertEqual(found_in(self.path), ({"unreadable"}, {"unread-pickles"}))

    def test_links_to_other_files(self):
        import h5py

        with h5py.File(self.folder / "other.h5", "w") as file:
            file["y"] = self.value
        for form, count in itertools.product(("earliest", "latest"), (1, 50)):
            with h5py.File(self.path, "w", libver=form) as file:
                for number in range(count):
                    file[f"x{number or ''}"] = h5py.ExternalLink("other.h5", "/y")
            self.assertEqual(self.load()[0], os.system)
            self.assertEqual(found_in(self.path), ({"unreadable"}, {"unread-pickles"}))

    def test_honest(self):
        import h5py
        import numpy

        with h5py.File(self.path, "w") as file:
            for number in range(20):
                group = file.create_group(f"group {number}")
                group["ones"] = numpy.ones((30, 30), "i4")
                group.create_dataset("rows", data=numpy.random.rand(60, 60), chunks=(7, 7))
                group["link"], group["soft"] = group["ones"], h5py.SoftLink("/group 0/ones")
                group.create_dataset("texts", data=["a", "b"], dtype=h5py.string_dtype())
        self.assertEqual(found_in(self.path), ({"no pickle"}, set()))


if __name__ == "__main__":
    unittest.main()

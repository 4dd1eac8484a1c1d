"""A Python that was built without bz2 and lzma."""

import bz2
import io
import lzma
import tempfile
import unittest
import zipfile
from pathlib import Path

from common import python

SCAN = """
import sys
sys.modules["bz2"] = sys.modules["lzma"] = sys.modules["_bz2"] = sys.modules["_lzma"] = None
from storklocker.scanning.command import main
status = main(["scan", {path!r}])
print("status", status)
"""
PICKLE = b"cos\nsystem\n(Vid\ntR."


def zipped(method):
    made = io.BytesIO()
    with zipfile.ZipFile(made, "w", method) as opened:
        opened.writestr("a.pickle", PICKLE)
    return made.getvalue()


class Lacking(unittest.TestCase):
    def scanned(self, data):
        with tempfile.TemporaryDirectory() as folder:
            path = Path(folder) / "file"
            path.write_bytes(data)
            return python(SCAN.format(path=str(path)))

    def test_what_needs_neither(self):
        self.assertIn("os.system", self.scanned(PICKLE))
        self.assertIn("os.system", self.scanned(zipped(zipfile.ZIP_DEFLATED)))

    def test_what_needs_one_is_a_finding(self):
        for data in (
            bz2.compress(PICKLE),
            lzma.compress(PICKLE),
            zipped(zipfile.ZIP_BZIP2),
            zipped(zipfile.ZIP_LZMA),
        ):
            said = self.scanned(data)
            self.assertIn("this Python can't unpack it", said)
            self.assertIn("status 2", said)


if __name__ == "__main__":
    unittest.main()

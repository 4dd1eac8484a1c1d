"""Files of every kind, for the tests of what reads them."""

import bz2
import gzip
import io
import lzma
import tempfile
from pathlib import Path


class Minimal:
    """A file that reads, and nothing else."""

    def __init__(self, data):
        self.inner = io.BytesIO(data)
        self.read = self.inner.read
        self.readline = self.inner.readline


class Piped(io.RawIOBase):
    """A stream that can't seek, and gives few bytes at a time."""

    def __init__(self, data, step=7):
        self.inner, self.step = io.BytesIO(data), step

    def readable(self):
        return True

    def readinto(self, room):
        found = self.inner.read(min(len(room), self.step))
        room[: len(found)] = found
        return len(found)


def files(data):
    """Files of every kind that hold some bytes."""
    yield io.BytesIO(data)
    yield io.BufferedReader(io.BytesIO(data), 16)
    yield Minimal(data)
    yield Piped(data)
    yield io.BufferedReader(Piped(data))
    with tempfile.TemporaryDirectory() as folder:
        path = Path(folder, "file")
        for opened in (open, lambda it, how: open(it, how, buffering=0)):
            path.write_bytes(data)
            with opened(path, "rb") as file:
                yield file
        for module in (gzip, bz2, lzma):
            with module.open(path, "wb") as file:
                file.write(data)
            with module.open(path, "rb") as file:
                yield file
    with tempfile.NamedTemporaryFile() as file:
        file.write(data)
        file.seek(0)
        yield file
    with tempfile.SpooledTemporaryFile() as file:
        file.write(data)
        file.seek(0)
        yield file

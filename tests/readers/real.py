"""Gives files to the readers that people use, in a process of its own, and tells what each asks.

An audit hook stops a reader before it imports a name that isn't listed, so nothing of a file runs.
It reads frames from standard input (eight bytes of length, then a file's bytes) and writes a line
of JSON for each: the pairs of a reader and a name that it asked for.
"""

import bz2
import gzip
import contextlib
import inspect
import io
import json
import lzma
import os
import pathlib
import pickle
import resource
import signal
import sys
import tarfile
import tempfile
import warnings
import zipfile
import zlib

from watching import Stopped, Watch

DEPTH = 3
"""How many containers a reader opens inside one another."""
SECONDS, MEMORY, UNPACKED = 1, 1 << 29, 1 << 18
"""What a reader may take: seconds, bytes beside those at the start, bytes that it unpacks."""

WATCH = Watch()


class Persistent(pickle.Unpickler):
    """A reader for which the pickle names objects elsewhere."""

    def persistent_load(self, name):
        return name


def rows(data):
    """Reads pickles up to the end."""
    file = io.BytesIO(data)
    while file.tell() < len(data):
        pickle.load(file)


def written(data):
    """The reader that is written in Python."""
    pickle._Unpickler(io.BytesIO(data)).load()


def encoded(data):
    pickle.loads(data, encoding="bytes")


def cached(data):
    """What Django's cache does: it reads a time, and the value that is packed behind it."""
    file = io.BytesIO(data)
    pickle.load(file)
    pickle.loads(unzlib(file.read()))


PICKLES = {
    "pickle": lambda data: pickle.load(io.BytesIO(data)),
    "pickle.py": written,
    "rows": rows,
    "bytes": encoded,
    "cached": cached,
    "persistent": lambda data: Persistent(io.BytesIO(data)).load(),
}


def unzlib(data):
    return zlib.decompressobj().decompress(data, UNPACKED)


def alone(data):
    """What the reader of LZMA alone unpacks in front of a fault: it takes any size."""
    file = lzma.LZMAFile(io.BytesIO(data), format=lzma.FORMAT_ALONE)
    return read_or_nothing(file)


PACKED = {
    "gzip": lambda data: gzip.GzipFile(fileobj=io.BytesIO(data)).read(UNPACKED),
    "bzip2": lambda data: bz2.BZ2File(io.BytesIO(data)).read(UNPACKED),
    "lzma": lambda data: lzma.LZMAFile(io.BytesIO(data)).read(UNPACKED),
    "lzma alone": alone,
    "zlib": unzlib,
}


def zip_members(data):
    """The members that `zipfile` finds."""
    found = []
    with zipfile.ZipFile(io.BytesIO(data)) as archive:
        for entry in archive.infolist():
            with open_or_nothing(archive.open, entry) as member:
                found.append(read_or_nothing(member))
    return found


def tar_members(data):
    """The members that `tarfile` finds."""
    found = []
    with tarfile.open(fileobj=io.BytesIO(data), mode="r:") as archive:
        for entry in archive:
            found.append(read_or_nothing(archive.extractfile(entry) or io.BytesIO()))
    return found


def open_or_nothing(opened, entry):
    try:
        return opened(entry)
    except Exception:
        return io.BytesIO()


def read_or_nothing(file):
    """What can be read of a file in front of its first fault."""
    made = b""
    try:
        while len(made) < UNPACKED:
            piece = file.read1(4096) if hasattr(file, "read1") else file.read(4096)
            if not piece:
                break
            made += piece
    except Exception:
        pass
    return made


def is_endless(data):
    """Whether bytes stand behind a zlib stream, on which joblib's reader never ends."""
    made = zlib.decompressobj(31 if data[:1] == b"\x1f" else 15)
    try:
        made.decompress(data, UNPACKED)
    except zlib.error:
        return False
    return bool(made.unused_data or made.unconsumed_tail)


def libraries():
    """The readers of libraries that are installed."""
    found = {}
    for readers in (of_numpy, of_joblib, of_pandas, of_torch):
        with contextlib.suppress(ImportError):
            found.update(readers())
    return found


def of_numpy():
    import numpy
    from numpy.lib.npyio import NpzFile

    def arrays(data):
        file = io.BytesIO(data)
        while file.tell() < len(data):
            read = numpy.load(file, allow_pickle=True)
            if isinstance(read, NpzFile):
                for name in read.files:
                    WATCH.run("numpy", read.__getitem__, name)
                return

    return {"numpy": arrays}


def of_joblib():
    import joblib

    return {"joblib": lambda data: is_endless(data) or joblib.load(io.BytesIO(data))}


def of_pandas():
    import pandas

    def reader(method):
        return lambda data: pandas.read_pickle(io.BytesIO(data), compression=method)

    return {f"pandas {it}": reader(it) for it in ("zip", "tar", "gzip", "bz2", "xz")}


def of_torch():
    import torch

    # (since 2.6 it loads only weights, unless it is told not to; before 1.13 it can't be told)
    is_told = "weights_only" in inspect.signature(torch.load).parameters
    words = {"weights_only": False} if is_told else {}
    return {
        "torch": lambda data: torch.load(io.BytesIO(data), **words),
        "torch file": lambda data: torch.load(put(data), **words),
    }


def put(data):
    """A file with these bytes, which torch needs for its tar files."""
    PLACE.write_bytes(data)
    return str(PLACE)


PLACE = pathlib.Path(tempfile.gettempdir()) / f"storklocker-reader-{os.getpid()}"
LIBRARIES = libraries()
TORCH = b"\x8a\nl\xfc\x9cF\xf9 j\xa8P\x19"
FRONTS = {
    "gzip": (b"\x1f\x8b",),
    "bzip2": (b"BZh",),
    "numpy": (b"\x93NUMPY", b"PK"),
    "pandas gzip": (b"\x1f\x8b",),
    "pandas bz2": (b"BZh",),
    "torch": (b"PK", b"\x80\x02" + TORCH, TORCH),
}
"""How files begin that these readers don't give up at once, or load as another one does too."""


def examine(data, depth=DEPTH):
    """All readers on these bytes, and on what they hold."""
    for name, read in PICKLES.items():
        WATCH.run(name, read, data)
    inner = [
        WATCH.run(name, unpack, data)
        for name, unpack in PACKED.items()
        if data.startswith(FRONTS.get(name, b""))
    ]
    is_zip = b"PK\x05\x06" in data[-70_000:]
    zipped = WATCH.run("zip", zip_members, data) if is_zip else None
    tarred = WATCH.run("tar", tar_members, data) if len(data) >= 512 else None
    needs = {"pandas zip": zipped, "pandas tar": tarred, "torch file": tarred}
    for name, read in LIBRARIES.items():
        is_left_out = name.startswith("torch") and zlib.crc32(data) % 4  # they take long
        if data.startswith(FRONTS.get(name, b"")) and needs.get(name, True) and not is_left_out:
            WATCH.run(name, read, data)
    if depth:
        for found in (*inner, *(zipped or ()), *(tarred or ())):
            if found:
                examine(found, depth - 1)


def stop(*_):
    raise Stopped


def main():
    warnings.simplefilter("ignore")
    pages = int(pathlib.Path("/proc/self/statm").read_text().split()[0])
    most = pages * resource.getpagesize() + MEMORY
    resource.setrlimit(resource.RLIMIT_AS, (most, most))
    signal.signal(signal.SIGALRM, stop)
    sys.addaudithook(WATCH.hear)
    out, sys.stdout = sys.stdout, open(os.devnull, "w")
    while True:
        length = sys.stdin.buffer.read(8)
        if len(length) < 8:
            break
        data = sys.stdin.buffer.read(int.from_bytes(length, "little"))
        WATCH.asked = []
        signal.setitimer(signal.ITIMER_REAL, SECONDS, SECONDS)  # again if a reader catches it
        try:
            examine(data)
        except (Stopped, MemoryError):
            pass
        finally:
            signal.setitimer(signal.ITIMER_REAL, 0)
        out.write(json.dumps(WATCH.asked) + "\n")
        out.flush()
    PLACE.unlink(missing_ok=True)


if __name__ == "__main__":
    main()

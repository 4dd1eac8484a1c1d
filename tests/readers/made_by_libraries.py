"""Files that libraries write themselves, of values without a name off the list."""

import base64
import bz2
import datetime
import gzip
import hashlib
import io
import json
import lzma
import pathlib
import pickle
import tarfile
import tempfile
import zipfile
import zlib

import shapes


def files():
    """The name and the bytes of each."""
    for make in (plain, packed, archives, arrays, frames, stored, checkpoints, tables, caches):
        try:
            yield from make()
        except ImportError:
            continue  # the library isn't here


def plain():
    for value in shapes.GOOD_VALUES:
        for protocol in range(6):
            yield f"pickle {type(value).__name__} {protocol}", pickle.dumps(value, protocol)
    yield "row", b"".join(shapes.GOOD)
    yield "text", b"config = 1\n"
    yield "source", b"class Sequential(Module):\n  __parameters__ = []\n"
    yield "import", b"import os\nprint(1)\n"
    yield "table", b"count,name\n1,a\n"
    yield "zeros", bytes(10_000)


def packed():
    data = b"".join(shapes.GOOD)
    yield "gzip", gzip.compress(data)
    yield "gzip of two", gzip.compress(data) + gzip.compress(data)
    yield "bzip2", bz2.compress(data)
    yield "xz", lzma.compress(data)
    yield "lzma", lzma.compress(data, format=lzma.FORMAT_ALONE)
    yield "zlib", zlib.compress(data)


def archives():
    members = [("a/data.pkl", shapes.GOOD[0]), ("b.txt", b"text"), ("c", shapes.GOOD[9])]
    for method in (zipfile.ZIP_STORED, zipfile.ZIP_DEFLATED, zipfile.ZIP_BZIP2, zipfile.ZIP_LZMA):
        for is_piped in (False, True):
            made = io.BytesIO()
            with zipfile.ZipFile(Pipe(made) if is_piped else made, "w", method) as archive:
                archive.writestr("d/", b"")
                for name, data in members:
                    archive.writestr(name, data)
            yield f"zip {method} {is_piped}", made.getvalue()
    for form in (tarfile.USTAR_FORMAT, tarfile.GNU_FORMAT, tarfile.PAX_FORMAT):
        made = io.BytesIO()
        with tarfile.open(fileobj=made, mode="w", format=form) as archive:
            for name, data in [*members, ("é/" + "n" * 90, b"x"), ("z.zip", made.getvalue())]:
                entry = tarfile.TarInfo(name)
                entry.size, entry.mtime = len(data), 1.5 if form == tarfile.PAX_FORMAT else 1
                archive.addfile(entry, io.BytesIO(data))
        yield f"tar {form}", made.getvalue()


class Pipe:
    """A file that can't seek, to which `zipfile` writes sizes behind the data."""

    def __init__(self, file):
        self.write, self.flush = file.write, file.flush


def arrays():
    import numpy

    kinds = ("f8", ">i4", "U3", "S2", "M8[ns]", "m8[25us]", "V5", "?", "c16", "f2", "g")
    made = [numpy.zeros(shape, kind) for kind in kinds for shape in ((), (3,), (2, 0), (2, 3))]
    made += [
        numpy.zeros(2, [("a", "i4"), ("b", "f8", (2,))]), numpy.asfortranarray(numpy.zeros((2, 3))),
        numpy.zeros(2, [(("t", "n"), "i4"), ("é", "U2")]), numpy.zeros(2, [("a", [("b", "i2")])]),
        numpy.array([1, "a", None], object), numpy.zeros((2, 2), [("a", object), ("b", "i4")]),
    ]
    rows = io.BytesIO()
    for number, array in enumerate(made):
        out = io.BytesIO()
        numpy.save(out, array)
        numpy.save(rows, array)
        yield f"npy {number} {array.dtype}", out.getvalue()
    yield "npy, all of them", rows.getvalue()
    for name, save in (("npz", numpy.savez), ("npz packed", numpy.savez_compressed)):
        out = io.BytesIO()
        save(out, *made)
        yield name, out.getvalue()
    yield "array", pickle.dumps(numpy.arange(9.0), 4)
    out = io.BytesIO()
    out.write(numpy.arange(9).tobytes())
    yield "raw numbers", out.getvalue()


def frames():
    import pandas

    frame = pandas.Series([1.5, 2.5]).to_dict()
    with tempfile.TemporaryDirectory() as folder:
        for end in ("", ".gz", ".bz2", ".xz", ".zip", ".tar", ".tar.gz"):
            path = pathlib.Path(folder) / f"frame{end}"
            pandas.to_pickle(frame, path)
            yield f"pandas{end}", path.read_bytes()


def stored():
    import joblib
    import numpy

    values = ({"a": 1}, numpy.arange(20.0), [numpy.ones((3, 4), order="F"), numpy.array([None])])
    for number, value in enumerate(values):
        for packing in (0, 3, "gzip", "bz2", "lzma", "xz"):
            out = io.BytesIO()
            joblib.dump(value, out, compress=(packing, 3) if isinstance(packing, str) else packing)
            yield f"joblib {number} {packing}", out.getvalue()


def checkpoints():
    import torch

    value = {"w": torch.ones(3, 3), "b": [torch.zeros(99)], "n": torch.arange(5)}
    value["all"] = [torch.full((130,), number) for number in range(256)]  # as the first byte
    for is_zip in (False, True):
        out = io.BytesIO()
        torch.save(value, out, _use_new_zipfile_serialization=is_zip)
        yield f"torch {is_zip}", out.getvalue()


def tables():
    import sqlite3

    words = [f"word {number}" for number in range(999)]
    dated = [pickle.dumps([datetime.date(2026, 1, 2), *words], protocol) for protocol in (2, 4)]
    values = [
        *shapes.GOOD, *dated, *words, "cats\ndogs\n", json.dumps({"all": words}, indent=1),
        *(base64.b64encode(data).decode() for data in shapes.GOOD), zlib.compress(dated[0]),
        *(hashlib.sha256(word.encode()).digest() for word in words), bytes(range(256)) * 99,
    ]
    with tempfile.TemporaryDirectory() as folder:
        for number, kind in enumerate(("value", "value unique", "value primary key")):
            path = pathlib.Path(folder) / f"base{number}"
            base = sqlite3.connect(str(path))
            base.execute(f"create table kept ({kind}) {'without rowid' * (number == 2)}")
            base.executemany("insert or ignore into kept values (?)", [(it,) for it in values])
            base.execute("delete from kept where rowid % 3 = 0" if number < 2 else "select 1")
            base.commit()
            base.close()
            yield f"sqlite {kind}", path.read_bytes()


def caches():
    import cachelib

    with tempfile.TemporaryDirectory() as folder:
        made = cachelib.FileSystemCache(folder, mode=0o600)
        for number, value in enumerate(shapes.GOOD_VALUES):
            made.set(str(number), value)
        for path in sorted(pathlib.Path(folder).iterdir()):
            yield f"cachelib {path.name}", path.read_bytes()

"""A script of a data scientist as it is, whose only change is `storklocker.install`: files of
pandas, NumPy and joblib that a colleague sent.
"""

import bz2
import gzip
import io
import pickle
import shelve
import tempfile
import zipfile
from pathlib import Path

import common
import poison
import watching

import storklocker
from storklocker import lists

NEEDS = ("numpy", "pandas", "joblib")
TABLE = poison.shapes(common.MARKS)


def run():
    """The test."""
    import joblib
    import numpy
    import pandas

    frame = pandas.DataFrame({"name": ["a", "b"], "when": pandas.date_range("2026", periods=2)})
    objects = numpy.array([1, "two", None], object)
    with tempfile.TemporaryDirectory() as folder:
        room = Path(folder)
        readers = readers_of(room, pandas, numpy, joblib)
        for read in readers.values():
            with common.table() as table:
                table.runs_all(read)
        for ending in ENDINGS:  # (libraries import modules on first use)
            frame.to_pickle(room / f"frame{ending}")
            pandas.read_pickle(room / f"frame{ending}")
        numpy.save(room / "objects.npy", objects, allow_pickle=True)
        joblib.dump([frame, objects], room / "both.joblib")
        joblib.load(room / "both.joblib")
        with shelve.open(str(room / "own")) as shelf:
            shelf["key"] = frame
        allow = lists.PANDAS | lists.NUMPY | lists.STANDARD_TYPES | lists.DATETIME
        storklocker.install(storklocker.Guard(allow, fix_imports=True))
        for _ in range(2):
            for ending in ENDINGS:
                assert pandas.read_pickle(room / f"frame{ending}").equals(frame)
            loaded = numpy.load(room / "objects.npy", allow_pickle=True)
            assert loaded.tolist() == objects.tolist()
            with shelve.open(str(room / "own")) as shelf:
                assert shelf["key"].equals(frame)
            both = joblib.load(room / "both.joblib")
            assert both[0].equals(frame) and both[1].tolist() == objects.tolist()
            watching.watch([*allow, ("joblib.numpy_pickle", "NumpyArrayWrapper")], [folder])
            for name, read in readers.items():
                for data in TABLE.values():
                    common.raises(lambda: read(data), ValueError, EOFError, OSError)
        common.nothing_ran()


ENDINGS = (".pkl", ".pkl.gz", ".pkl.bz2", ".pkl.zip")


def zipped(data):
    """The pickle in a zip file."""
    made = io.BytesIO()
    with zipfile.ZipFile(made, "w") as archive:
        archive.writestr("frame.pkl", data)
    return made.getvalue()


def readers_of(room, pandas, numpy, joblib):
    """The ways of the script to read a file, each a function of its pickle."""
    packed = dict(zip(ENDINGS, (bytes, gzip.compress, bz2.compress, zipped)))

    def of_pandas(ending):
        def read(data):
            path = room / f"bad{ending}"
            path.write_bytes(packed[ending](data))
            return pandas.read_pickle(path)

        return read

    def of_numpy(data):
        path = room / "bad.npy"
        with path.open("wb") as file:
            file.write(HEADER + data)
        return numpy.load(path, allow_pickle=True)

    def of_joblib(data):
        path = room / "bad.joblib"
        path.write_bytes(data)
        return joblib.load(path)

    def of_shelve(data):
        with shelve.open(str(room / "shelf")) as shelf:
            shelf.dict[b"key"] = data
            shelf.cache.clear()
            return shelf["key"]

    found = {ending: of_pandas(ending) for ending in ENDINGS}
    return {**found, "numpy": of_numpy, "joblib": of_joblib, "shelve": of_shelve,
            "pickle": lambda data: pickle.loads(data)}


_WORDS = b"{'descr': '|O', 'fortran_order': False, 'shape': (1,), }\n"
HEADER = b"\x93NUMPY\x01\x00" + len(_WORDS).to_bytes(2, "little") + _WORDS

"""joblib's files behind the guard: what joblib loads."""

import importlib.util
import io
import pickle
import subprocess
import sys
import tempfile
import warnings
from pathlib import Path

import common
import values

NEEDS = ("numpy", "joblib", "sklearn")
PACKED = (0, ("zlib", 3), ("gzip", 3), ("bz2", 3), ("lzma", 3), ("xz", 3))


def run():
    """The test."""
    warnings.simplefilter("ignore")
    with tempfile.TemporaryDirectory() as folder:
        try_arrays()
        try_files(Path(folder))
        try_mapped(Path(folder) / "mapped")
        try_without_joblib(Path(folder) / "alone")
        try_installed(Path(folder))
        try_as_pickle(Path(folder) / "model.pickle")
    try_models()
    common.nothing_ran()


def arrays_guard(**words):
    """A guard of NumPy's list and what joblib's arrays name beside it."""
    import storklocker
    from storklocker import lists

    more = [("numpy", name) for name in ("matrix", "memmap", "recarray", "record")]
    allow = lists.NUMPY | lists.COLLECTIONS | storklocker.AllowList(more)
    return storklocker.Guard(allow, fix_imports=True, **words)


def dumped(value, **words):
    """The bytes of a joblib file."""
    import joblib

    file = io.BytesIO()
    joblib.dump(value, file, **words)
    return file.getvalue()


def keeps_classes():
    """Whether joblib loads a matrix as one: under NumPy 2 some of its versions don't."""
    import joblib
    import numpy

    return type(joblib.load(io.BytesIO(dumped(numpy.matrix([[1]]))))) is numpy.matrix


def arrays():
    """Arrays of each kind."""
    import numpy

    plain = ("f8", "f4", "f2", "g", "i1", "u2", "i8", ">i4", "?", "c16", "S3", "U3", "M8[ns]",
             "m8[s]", "V3")
    structured = (
        [("a", "<i4"), ("b", "f8", (2,))], [("a", ">i4"), ("b", ">i8")],
        [("a", ">i4"), ("b", "<i8")], {"names": ["a"], "formats": ["i4"], "offsets": [4]},
        numpy.dtype([("a", "i1"), ("b", "i8")], align=True), [(("T", "a"), "i4")],
        [("p", [("x", "f4"), ("y", "f4")]), ("q", "U3")], numpy.dtype("f8", metadata={"a": 1}),
    )
    grid = numpy.arange(6.0).reshape(2, 3)
    return [
        *(numpy.array([1, 0]).astype(kind) for kind in plain[:9]), numpy.array([b"xy", b"z"]),
        *(numpy.zeros(2, kind) for kind in (*plain[9:], *structured)), grid, grid[:, ::2],
        numpy.asfortranarray(grid), numpy.array(5.0), numpy.array(None), numpy.empty((3, 0, 2)),
        numpy.array(["a", None, {"k": 1}], object), numpy.empty(0, object),
        numpy.asfortranarray(numpy.array([["a", 1], [None, 2.5]], object)),
        numpy.array([(1, None)], [("i", "i4"), ("o", "O")]),
        *[numpy.matrix([[1, 2], [3, 4]])] * keeps_classes(),
        numpy.arange(20)[::-3], numpy.ma.array([1, 2], mask=[0, 1]), numpy.arange(1 << 17),
        numpy.rec.array([(1, 2.0)], dtype=[("a", "i4"), ("b", "f8")]),
    ]


def assert_same(found, right):
    """Arrays with the same type, shape, flags and items."""
    import numpy

    assert type(found) is type(right) and found.dtype == right.dtype, (found, right)
    assert found.shape == right.shape and str(found.flags) == str(right.flags), (found, right)
    assert numpy.array_equal(found, right), (found, right)


def try_arrays():
    """Arrays as joblib gives them, alone and among other values, in each protocol and packing."""
    import joblib

    from storklocker.contrib.joblib import load_joblib

    guard, count = arrays_guard(), 0
    packed = (*PACKED, "lz4") if importlib.util.find_spec("lz4") else PACKED
    for value in arrays():
        for protocol in range(6):
            for packing in packed if protocol in (2, 4) else (0,):
                data = dumped(value, protocol=protocol, compress=packing)
                assert_same(load_joblib(data, guard), joblib.load(io.BytesIO(data)))
                count += 1
    assert count > 500
    data = dumped({"row": arrays(), "text": "x" * 70000, "after": [1, None]})
    found, right = load_joblib(data, guard), joblib.load(io.BytesIO(data))
    assert list(found) == list(right) and found["after"] == [1, None]
    for one, other in zip(found["row"], right["row"]):
        assert_same(one, other)
    assert load_joblib(pickle.dumps({"a": 1}), guard) == {"a": 1}


def try_files(folder):
    """Names, open files and pipes; an open file is left behind what was loaded."""
    import joblib
    import numpy

    from storklocker.contrib.joblib import load_joblib

    guard, path, array = arrays_guard(), folder / "x.joblib", numpy.arange(5.0)
    joblib.dump(array, path)
    for given in (path, str(path), path.read_bytes()):
        assert_same(load_joblib(given, guard), array)
    data = path.read_bytes()
    path.write_bytes(b"front" + data + dumped([1], compress=3) + b"behind")
    with path.open("rb") as file:
        assert file.read(5) == b"front"
        assert_same(load_joblib(file, guard), array)
        assert load_joblib(file, guard) == [1] and file.read() == b"behind"
        file.seek(5)
        common.raises(lambda: load_joblib(file, common.guard()))
        assert file.tell() == 5
    pipe = subprocess.Popen(["cat"], stdin=subprocess.PIPE, stdout=subprocess.PIPE)
    pipe.stdin.write(data)
    pipe.stdin.close()
    assert_same(load_joblib(pipe.stdout, guard), array)
    pipe.stdout.close()
    assert pipe.wait() == 0


def try_mapped(path):
    """Arrays that are mapped from the file, in each mode."""
    import joblib
    import numpy

    from storklocker.contrib.joblib import load_joblib

    guard, grid = arrays_guard(), numpy.asfortranarray(numpy.ones((3, 4)))
    rows = [numpy.arange(10.0), grid, numpy.arange(4, dtype=">i4"), numpy.array(["a"], object)]
    joblib.dump(rows, path)
    for mode in ("r", "r+", "w+", "c"):
        found, right = (read(path, mmap_mode=mode) for read in (
            lambda path, **words: load_joblib(path, guard, **words), joblib.load))
        for one, other in zip(found, right):
            if not other.dtype.isnative:  # (joblib 0.17 maps each order, 1.2 copies such an array)
                assert one.dtype == numpy.dtype("i4") and numpy.array_equal(one, other)
                continue
            assert_same(one, other)
            places = [(it.filename, it.mode, it.offset) for it in (one, other)
                      if isinstance(it, numpy.memmap)]
            assert len(set(places)) <= 1, places
        assert isinstance(found[0], numpy.memmap)
    try:
        load_joblib(path, guard, mmap_mode="x")
    except ValueError:
        return
    raise AssertionError("a mode that NumPy doesn't have")


def try_without_joblib(path):
    """A load neither imports joblib nor needs its wrapper on the list."""
    import numpy

    path.write_bytes(dumped([numpy.arange(3)]))
    program = (
        "import sys; sys.modules['joblib'] = None; from storklocker import Guard, lists;"
        "from storklocker.contrib.joblib import load_joblib;"
        "assert load_joblib(sys.argv[1], Guard(lists.NUMPY))[0].sum() == 3"
    )
    subprocess.run([sys.executable, "-c", program, str(path)], check=True)


INSTALLED = """
import os, sys
if sys.argv[1] == "early":
    import joblib
import storklocker
from storklocker import lists
done = storklocker.install(storklocker.Guard(lists.NUMPY))
import joblib
is_replaced = "joblib.numpy_pickle.NumpyUnpickler.load" in done.replaced
assert is_replaced == (sys.argv[1] == "early")
assert "a subclass of _Unpickler: joblib.numpy_pickle.NumpyUnpickler" not in done.left
good, bad, mark = sys.argv[2:]
for words in ({}, {"mmap_mode": "r"}):
    assert joblib.load(good, **words)[0].sum() == 3
    try:
        joblib.load(bad, **words)
    except storklocker.Refused:
        assert not os.path.exists(mark)
    else:
        raise AssertionError("what is hostile was loaded")
with storklocker.trusted():
    joblib.load(bad)
assert os.path.exists(mark)
"""


def try_installed(folder):
    """joblib.load under an installed guard, with joblib imported before it or after."""
    import numpy

    good, bad, mark = (folder / name for name in ("good", "bad", "ran"))
    good.write_bytes(dumped([numpy.arange(3)]))
    runs = b"(cbuiltins\nopen\n(X" + len(str(mark)).to_bytes(4, "little") + str(mark).encode()
    bad.write_bytes(dumped([numpy.arange(3)], protocol=2)[:-1] + runs + b"X\1\0\0\0wtR1.")
    for when in ("early", "late"):
        words = [sys.executable, "-c", INSTALLED, when, *map(str, (good, bad, mark))]
        subprocess.run(words, check=True)
        mark.unlink()


def try_as_pickle(path):
    """The plain pickle of a value, for those who write."""
    import numpy

    from storklocker.contrib.joblib import dump_joblib_as_pickle

    dump_joblib_as_pickle({"weights": numpy.arange(9.0)}, path)
    with path.open("rb") as file:
        assert_same(arrays_guard().load(file)["weights"], numpy.arange(9.0))


def try_models():
    """Estimators, which predict as those that joblib loads."""
    import joblib
    import numpy
    import storklocker
    from storklocker import lists

    from storklocker.contrib.joblib import load_joblib

    guard, told = storklocker.Guard(lists.SCIKIT_LEARN, fix_imports=True), 0
    given = numpy.arange(40.0).reshape(20, 2) % 7
    for model in values.sklearn_values():
        for words in ({}, {"compress": 3}, {"protocol": 2}):
            data = dumped(model, **words)
            found, right = load_joblib(data, guard), joblib.load(io.BytesIO(data))
            assert type(found) is type(right)
            for name in ("predict", "predict_proba", "decision_function", "transform"):
                if hasattr(right, name) and type(right).__name__ != "LabelEncoder":
                    made = [getattr(it, name)(given) for it in (found, right)]
                    made = [it.toarray() if hasattr(it, "toarray") else it for it in made]
                    assert numpy.array_equal(*made), (model, name)
                    told += 1
    assert told > 60

"""NumPy's files under a guard.

    from storklocker.contrib.numpy import load_npy, load_npz

    array = load_npy("array.npy", guard)
    arrays = load_npz("arrays.npz", guard)

An array of objects is a header followed by a pickle. The file is read once, so it can't change
between the check and the load. Arrays of numbers contain no pickle.
"""

from __future__ import annotations

import functools
import io
import operator
from pathlib import Path
from typing import Any, BinaryIO, Dict, Union

from .._guard import Guard
from .._refusal import loaded_from, name_of
from ..scanning.archives import Archive

Source = Union[str, Path, bytes, BinaryIO]


def load_npy(source: Source, guard: Guard) -> Any:
    """The array in an `.npy` file. Raises Refused if its pickle is refused."""
    with loaded_from(name_of(source)):
        return _array_of(bytes_of(source), guard)


def load_npz(source: Source, guard: Guard) -> Dict[str, Any]:
    """The arrays in an `.npz` file, by name. Raises Refused if the pickle of any is refused, and
    UnpicklingError if the file unpacks to more than the bounds of `storklocker scan`.
    """
    with loaded_from(name_of(source)):
        archive = Archive(bytes_of(source))
        return {name[:-4]: _array_of(archive.read(name), guard) for name in archive.sizes}


def bytes_of(source: Source) -> bytes:
    """All bytes of a file, given by name, open or read."""
    if isinstance(source, bytes):
        return source
    return Path(source).read_bytes() if isinstance(source, (str, Path)) else source.read()


def _array_of(data: bytes, guard: Guard) -> Any:
    import numpy
    from numpy.lib import format as numpy_format

    layout: Any = numpy_format
    stream = io.BytesIO(data)
    version = layout.read_magic(stream)
    read = layout.read_array_header_1_0 if version == (1, 0) else layout.read_array_header_2_0
    shape, _, kind = read(stream)
    rest = len(data) - stream.tell()
    if kind.hasobject:
        array = guard.loads(data[stream.tell() :])
        if not isinstance(array, numpy.ndarray):
            raise guard.UnpicklingError(f"the pickle isn't an array: {type(array).__name__}")
        return array
    if functools.reduce(operator.mul, shape, kind.itemsize) > rest:  # NumPy takes the memory first
        raise guard.UnpicklingError("the header announces more bytes than follow")
    return numpy.load(io.BytesIO(data), allow_pickle=False)

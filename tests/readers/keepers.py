"""Programs that keep pickles in files of their own: how each stores a value, and how it loads it.

A file is made from what the library itself has written, with other bytes for the value.
"""

import atexit
import contextlib
import dataclasses
import dbm.dumb
import importlib
import logging.handlers
import pathlib
import pickle
import shelve
import shutil
import sqlite3
import struct
import tempfile
from typing import Callable, Dict, Iterator, Tuple, Union

from django_keepers import KEY, Keeper, django_files, django_table, filled, sessions


def shelf(name: str, is_searched: bool) -> Keeper:
    """The shelves over a module of `dbm`."""
    module = importlib.import_module(name)

    def put(folder: pathlib.Path, data: bytes) -> None:
        with module.open(str(folder / "shelf"), "n") as base:
            base[b"other"], base[KEY.encode()] = pickle.dumps(None), data

    def load(folder: pathlib.Path) -> object:
        with shelve.open(str(folder / "shelf"), "r") as opened:
            return opened[KEY]

    return Keeper(put, load, is_searched)


def bsddb() -> Keeper:
    import bsddb3

    def put(folder: pathlib.Path, data: bytes) -> None:
        base = bsddb3.btopen(str(folder / "base"), "n")
        base[KEY.encode()] = data
        base.close()

    def load(folder: pathlib.Path) -> object:
        with shelve.BsdDbShelf(bsddb3.btopen(str(folder / "base"), "r")) as opened:
            return opened[KEY]

    return Keeper(put, load, True)


def lightning() -> Keeper:
    import lmdb

    def opened(folder: pathlib.Path):
        return lmdb.open(str(folder / "base"), subdir=False, map_size=1 << 20, lock=False)

    def put(folder: pathlib.Path, data: bytes) -> None:
        with opened(folder) as base, base.begin(write=True) as change:
            change.put(KEY.encode(), data)

    def load(folder: pathlib.Path) -> object:
        with opened(folder) as base, base.begin() as view:
            return pickle.loads(view.get(KEY.encode()))

    return Keeper(put, load, True)


def hdf5() -> Keeper:
    import h5py
    import numpy

    def put(folder: pathlib.Path, data: bytes) -> None:
        with h5py.File(folder / "file.h5", "w") as file:
            file.create_dataset(KEY, data=numpy.void(data))

    def load(folder: pathlib.Path) -> object:
        with h5py.File(folder / "file.h5", "r") as file:
            return pickle.loads(file[KEY][()].tobytes())

    return Keeper(put, load, True)


def attribute_of_tables() -> Keeper:
    import h5py
    import numpy
    import tables

    def put(folder: pathlib.Path, data: bytes) -> None:
        path = folder / "file.h5"
        tables.open_file(str(path), "w").close()
        with h5py.File(path, "a") as file:
            file.attrs[KEY] = numpy.bytes_(data)

    def load(folder: pathlib.Path) -> object:
        with tables.open_file(str(folder / "file.h5")) as file:
            return file.root._v_attrs[KEY]

    return Keeper(put, load, True)


def row_of_tables() -> Keeper:
    import tables

    class Given(tables.ObjectAtom):
        def _tobuffer(self, object_):
            return object_

    def put(folder: pathlib.Path, data: bytes) -> None:
        with tables.open_file(str(folder / "file.h5"), "w") as file:
            file.create_vlarray(file.root, KEY, Given()).append(data)

    def load(folder: pathlib.Path) -> object:
        with tables.open_file(str(folder / "file.h5")) as file:
            return file.root[KEY][0]

    return Keeper(put, load, True)


def messages() -> Keeper:
    import msgpack
    import msgpack_numpy

    def put(folder: pathlib.Path, data: bytes) -> None:
        held = {b"nd": True, b"type": b"O", b"kind": b"O", b"shape": [1], b"data": data}
        (folder / "a.msgpack").write_bytes(msgpack.packb(held))

    def load(folder: pathlib.Path) -> object:
        held = (folder / "a.msgpack").read_bytes()
        return msgpack.unpackb(held, object_hook=msgpack_numpy.decode)

    return Keeper(put, load, True)


def records() -> Keeper:
    """What `SocketHandler` sends, as the receiver in Python's documents reads it."""
    honest = logging.handlers.SocketHandler("localhost", 0).makePickle(
        logging.LogRecord("name", 1, "path", 1, "text", None, None)
    )

    def put(folder: pathlib.Path, data: bytes) -> None:
        (folder / "records").write_bytes(honest + struct.pack(">L", len(data)) + data)

    def load(folder: pathlib.Path) -> object:
        with (folder / "records").open("rb") as file:
            while True:
                front = file.read(4)
                if len(front) < 4:
                    return None
                pickle.loads(file.read(struct.unpack(">L", front)[0]))

    return Keeper(put, load)


def arrays_of_zarr(is_packed: bool) -> Keeper:
    import numcodecs
    import zarr

    packer = numcodecs.Blosc() if is_packed else None

    def put(folder: pathlib.Path, data: bytes) -> None:
        codec = numcodecs.Pickle()
        zarr.open(
            str(folder), "w", shape=1, dtype=object, object_codec=codec, compressor=packer
        )
        (folder / "0").write_bytes(packer.encode(data) if packer else data)

    return Keeper(put, lambda folder: zarr.open(str(folder), "r")[0])


def dicts() -> Keeper:
    from sqlitedict import SqliteDict

    def make(folder: pathlib.Path) -> None:
        with SqliteDict(str(folder / "base"), autocommit=True) as base:
            base[KEY] = None

    def load(folder: pathlib.Path) -> object:
        with SqliteDict(str(folder / "base"), flag="r") as base:
            return base[KEY]

    return Keeper(filled(make, "base", "update unnamed set value = ?"), load)


def disks() -> Keeper:
    import diskcache

    def make(folder: pathlib.Path) -> None:
        with diskcache.Cache(str(folder)) as cache:
            cache[KEY] = ()

    def load(folder: pathlib.Path) -> object:
        with diskcache.Cache(str(folder)) as cache:
            return cache[KEY]

    return Keeper(filled(make, "cache.db", "update Cache set value = ?"), load)


def made_by_sql() -> Keeper:
    """A value that nobody stored: a view makes it of two parts."""

    def put(folder: pathlib.Path, data: bytes) -> None:
        base, at = sqlite3.connect(str(folder / "base")), len(data) // 2
        base.execute("create table parts (a, b)")
        base.execute("insert into parts values (?, ?)", (data[:at].hex(), data[at:].hex()))
        words = f"select x'{data[:at].hex()}' || x'{data[at:].hex()}' as value from parts"
        base.execute(f"create view kept as select cast(value as blob) as value from ({words})")
        base.commit()
        base.close()

    def load(folder: pathlib.Path) -> object:
        base = sqlite3.connect(str(folder / "base"))
        try:
            return pickle.loads(base.execute("select value from kept").fetchone()[0])
        finally:
            base.close()

    return Keeper(put, load)


def dogpile() -> Keeper:
    """dogpile.cache, over `dbm.dumb`: a line of JSON stands in front of each value."""
    from dogpile.cache import make_region

    def region(folder: pathlib.Path, **more: object):
        words = {"filename": str(folder / "base"), "rw_lockfile": False, "dogpile_lockfile": False}
        return make_region(**more).configure("dogpile.cache.dbm", arguments=words)

    def put(folder: pathlib.Path, data: bytes) -> None:
        dbm.dumb.open(str(folder / "base"), "n").close()
        region(folder, serializer=bytes).set(KEY, data)

    return Keeper(put, lambda folder: region(folder).get(KEY), True)


def cachelib_files() -> Keeper:
    from cachelib import FileSystemCache

    def put(folder: pathlib.Path, data: bytes) -> None:
        path = pathlib.Path(FileSystemCache(str(folder))._get_filename(KEY))
        front = b"zzzz" if len(data) % 2 else struct.pack("I", 0)
        path.write_bytes(front + data)

    return Keeper(put, lambda folder: FileSystemCache(str(folder)).get(KEY))


def checkpoints() -> Keeper:
    """The places of a checkpoint of torch's."""
    checkpoint = _checkpoint()

    def put(folder: pathlib.Path, data: bytes) -> None:
        (folder / ".metadata").write_bytes(data)

    def load(folder: pathlib.Path) -> object:
        return checkpoint.FileSystemReader(str(folder)).read_metadata()

    return Keeper(put, load)


def dumped() -> Keeper:
    """A dump of Redis, which the server reads again."""
    if shutil.which("redis-server") is None:
        raise ImportError("redis-server isn't here")
    from redis_files import redis

    kept = contextlib.ExitStack()
    permitted = ("--enable-debug-command", "yes", "--enable-protected-configs", "yes")
    try:
        ask = kept.enter_context(redis(tempfile.mkdtemp(), *permitted))
    except OSError:  # (before 7.0 everything is permitted)
        ask = kept.enter_context(redis(tempfile.mkdtemp()))
    atexit.register(kept.close)

    def put(folder: pathlib.Path, data: bytes) -> None:
        ask(b"CONFIG", b"SET", b"dir", bytes(folder))
        ask(b"FLUSHALL")
        ask(b"SET", KEY.encode(), data)
        ask(b"SAVE")

    def load(folder: pathlib.Path) -> object:
        ask(b"CONFIG", b"SET", b"dir", bytes(folder))
        ask(b"DEBUG", b"RELOAD", b"NOSAVE")
        return pickle.loads(ask(b"GET", KEY.encode()))

    return Keeper(put, load, True)


def _checkpoint():
    """The module of torch, of which a dataclass has a default that Python 3.11 refuses."""
    real = dataclasses.dataclass

    def dataclass(made=None, **how):
        if made is None:
            return lambda made: dataclass(made, **how)
        how.update({"unsafe_hash": True} if made.__name__ == "TensorProperties" else {})
        return real(made, **how)

    dataclasses.dataclass = dataclass
    try:
        return importlib.import_module("torch.distributed.checkpoint")
    except ImportError:
        return importlib.import_module("torch.distributed._shard.checkpoint")
    finally:
        dataclasses.dataclass = real


def lacking(library: str) -> Callable[[], Keeper]:
    """Of a library that Debian doesn't have."""

    def make() -> Keeper:
        raise ImportError(f"Debian has no {library}, so nothing reads it here")

    return make


MAKERS: Dict[str, Tuple[str, Callable[[], Keeper]]] = {
    "shelve, dbm.dumb": ("dbm.dumb", lambda: shelf("dbm.dumb", False)),
    "dogpile.cache": ("dbm.dumb", dogpile),
    "shelve, dbm.gnu": ("GDBM", lambda: shelf("dbm.gnu", True)),
    "shelve, dbm.ndbm": ("Berkeley DB", lambda: shelf("dbm.ndbm", True)),
    "shelve, dbm.sqlite3": ("SQLite", lambda: shelf("dbm.sqlite3", False)),
    "bsddb3": ("Berkeley DB", bsddb),
    "lmdb": ("LMDB", lightning),
    "h5py": ("HDF5", hdf5),
    "PyTables, an attribute": ("HDF5", attribute_of_tables),
    "PyTables, a row": ("HDF5", row_of_tables),
    "pyarrow, a file": ("Arrow", lacking("pyarrow")),
    "pyarrow, a table": ("Parquet", lacking("pyarrow")),
    "ZODB": ("ZODB", lacking("ZODB")),
    "msgpack-numpy": ("msgpack", messages),
    "SocketHandler": ("records", records),
    "zarr": ("zarr", lambda: arrays_of_zarr(False)),
    "zarr, packed": ("zarr", lambda: arrays_of_zarr(True)),
    "sqlitedict": ("SQLite", dicts),
    "diskcache": ("SQLite", disks),
    "sqlite3, a view": ("SQLite", made_by_sql),
    "Django, a table": ("SQLite", django_table),
    "Django, sessions": ("SQLite", sessions),
    "Django, files": ("Django", django_files),
    "cachelib": ("cachelib", cachelib_files),
    "torch, a checkpoint": ("distcp", checkpoints),
    "redis-server": ("Redis", dumped),
}
"""What each reads, and what makes it, which raises ImportError if the library isn't here."""


def keepers() -> Iterator[Tuple[str, Union[Keeper, str]]]:
    """The name of each and what it is; or the reason why it isn't here."""
    for name, (_, make) in MAKERS.items():
        try:
            yield name, make()
        except ImportError as error:
            yield name, str(error)

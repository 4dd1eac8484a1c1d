"""What a program is that keeps pickles in files of its own, and those of Django."""

import base64
import pathlib
import pickle
import shutil
import sqlite3
import tempfile
import time
import zlib
from typing import Callable, NamedTuple

KEY = "key"
DJANGO = pathlib.Path(tempfile.mkdtemp(), "base")


class Keeper(NamedTuple):
    """A program that keeps pickles."""

    put: Callable[[pathlib.Path, bytes], object]
    """Stores the bytes of a value in an empty folder."""
    load: Callable[[pathlib.Path], object]
    """Loads the value in a folder."""
    is_searched: bool = False
    """Whether `scan` looks through the file for what begins like a pickle."""


def filled(make: Callable, name: str, words: str) -> Callable:
    """Stores values in a base that a library has made once, by a statement of SQL."""
    kept = pathlib.Path(tempfile.mkdtemp())
    make(kept)

    def put(folder: pathlib.Path, data: object) -> None:
        shutil.copytree(kept, folder, dirs_exist_ok=True)
        base = sqlite3.connect(str(folder / name))
        base.execute(words, (data,))
        base.commit()
        base.close()

    return put


def django_table() -> Keeper:
    """Django's cache in a database, whose values are Base64."""
    _configured()
    from django.core.cache.backends.db import DatabaseCache
    from django.core.management import call_command
    from django.db import connection

    cache = DatabaseCache("cached", {})

    def make(folder: pathlib.Path) -> None:
        call_command("createcachetable", "cached", verbosity=0)
        cache.set(KEY, None)
        connection.close()
        shutil.move(str(DJANGO), str(folder / "base"))

    fill = filled(make, "base", "update cached set value = ?")

    def put(folder: pathlib.Path, data: bytes) -> None:
        text = base64.b64encode(data).decode("ascii")
        other = ("", "\n", "!", "-_", " \u20ac ")[len(data) % 5]  # which Python passes over
        fill(folder, other + text[:9] + other + text[9:])

    def load(folder: pathlib.Path) -> object:
        shutil.copy(str(folder / "base"), str(DJANGO))
        try:
            return cache.get(KEY)
        finally:
            connection.close()

    return Keeper(put, load)


def _configured() -> None:
    import django
    from django.conf import settings

    if not settings.configured:
        base = {"ENGINE": "django.db.backends.sqlite3", "NAME": str(DJANGO)}
        table = {"BACKEND": "django.core.cache.backends.db.DatabaseCache", "LOCATION": "cached"}
        settings.configure(DATABASES={"default": base}, CACHES={"default": table}, USE_TZ=True)
        django.setup()


def sessions() -> Keeper:
    """What Django signs, in a table."""
    _configured()
    from django.contrib.sessions.serializers import PickleSerializer
    from django.core import signing

    class Given:
        def dumps(self, data: bytes) -> bytes:
            return data

    def make(folder: pathlib.Path) -> None:
        base = sqlite3.connect(str(folder / "base"))
        base.executescript("create table kept (value text); insert into kept values ('')")
        base.close()

    fill = filled(make, "base", "update kept set value = ?")

    def put(folder: pathlib.Path, data: bytes) -> None:
        fill(folder, signing.dumps(data, KEY, serializer=Given, compress=len(data) % 2 > 0))

    def load(folder: pathlib.Path) -> object:
        base = sqlite3.connect(str(folder / "base"))
        text = base.execute("select value from kept").fetchone()[0]
        base.close()
        return signing.loads(text, KEY, serializer=PickleSerializer)

    return Keeper(put, load)


def django_files() -> Keeper:
    _configured()
    from django.core.cache.backends.filebased import FileBasedCache

    def put(folder: pathlib.Path, data: bytes) -> None:
        cache = FileBasedCache(str(folder), {})
        path = pathlib.Path(cache._key_to_file(KEY))
        path.write_bytes(pickle.dumps(time.time() + 999, 4) + zlib.compress(data))

    return Keeper(put, lambda folder: FileBasedCache(str(folder), {}).get(KEY))

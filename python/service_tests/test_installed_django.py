"""A Django project as it is, whose only change is `storklocker.install`: caches in memory, in files
and in a database, and sessions that are pickled.
"""

import pickle
import tempfile

import common
import poison
import test_django
import watching

import storklocker
from storklocker import lists

NEEDS = ("django",)
KINDS = ("memory", "files", "database")
TABLE = poison.shapes(common.MARKS)


def run():
    """The test."""
    with tempfile.TemporaryDirectory() as folder:
        caches = configured(folder)
        for kind in KINDS:
            with common.table() as table:
                table.runs_all(test_django.reader(caches[kind], kind))
        with common.table() as table:
            table.runs_all(test_django.read_session)
        allow = storklocker.AllowList(common.LISTED) | lists.DJANGO
        done = storklocker.install(storklocker.Guard(allow, fix_imports=True))
        assert "django.core.cache.backends.locmem.pickle" not in done.left
        watching.watch(allow, [folder])
        for kind in KINDS:
            try_cache(caches[kind], kind)
        for data in TABLE.values():
            common.raises(lambda: test_django.read_session(data))
        for value in ({"user": 1}, common.good(1)):
            assert test_django.read_session(pickle.dumps(value)) == value
        common.nothing_ran()


def configured(folder):
    """The caches, without any adapter."""
    import django
    from django.conf import settings
    from django.core.management import call_command

    places = {"files": folder, "memory": "own", "database": "own"}
    caches = {
        kind: {"BACKEND": test_django.PLAIN[kind], "LOCATION": places[kind]} for kind in KINDS
    }
    settings.configure(
        CACHES={"default": caches["memory"], **caches},
        DATABASES={"default": {"ENGINE": "django.db.backends.sqlite3", "NAME": ":memory:"}},
        INSTALLED_APPS=["django.contrib.contenttypes", "django.contrib.auth"],
        DEFAULT_AUTO_FIELD="django.db.models.AutoField",
        SECRET_KEY="for the test",
    )
    django.setup()
    from django.core.cache import caches as made

    call_command("migrate", verbosity=0)
    call_command("createcachetable", verbosity=0)
    return made


def try_cache(cache, kind):
    """What is honest comes back, and each hostile entry is refused when it is read."""
    from django import http
    from django.contrib.auth.models import Group

    response = http.HttpResponse(b"text")
    response["ETag"] = "1"
    response.set_cookie("name", "value")
    for value in (common.good(1), Group(pk=1, name="name"), [1, "two", None]):
        cache.set("good", value)
        assert cache.get("good") == value
    cache.set("good", response)
    again = cache.get("good")
    assert (again.content, again["ETag"]) == (b"text", "1") and "name" in again.cookies
    read = test_django.reader(cache, kind)
    for data in [*TABLE.values(), *(common.hostile(number) for number in range(3))]:
        common.raises(lambda: read(data), EOFError)
    cache.set("good", common.good(2))
    assert cache.get("good") == common.good(2)

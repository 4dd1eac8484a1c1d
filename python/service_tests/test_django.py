"""Django's caches in memory, in files, in a database and in Redis behind the guard."""

import base64
import pickle
import tempfile
import time
import zlib

import common
import poison
import watching

import storklocker

NEEDS = ("django", "django_redis", "redis", "$redis-server")
KINDS = {
    "memory": "LocMemCache",
    "files": "FileBasedCache",
    "database": "DatabaseCache",
    "redis": "RedisCache",
}
PLAIN = {
    "memory": "django.core.cache.backends.locmem.LocMemCache",
    "files": "django.core.cache.backends.filebased.FileBasedCache",
    "database": "django.core.cache.backends.db.DatabaseCache",
    "redis": "django_redis.cache.RedisCache",
}
GUARDS = {kind: common.guard() for kind in KINDS}
GUARD = common.guard()
TOLD = []
HEARD = common.guard(TOLD.append)
REPORTING = storklocker.Guard(storklocker.AllowList(common.LISTED), enforce=False)
TABLE = poison.shapes(common.MARKS)


def run():
    """The test."""
    with tempfile.TemporaryDirectory() as folder, common.redis_server(folder) as port:
        caches = configured(folder, port)
        for kind in KINDS:
            with common.table() as table:
                table.runs_all(reader(caches[f"plain {kind}"], kind))
        with common.table() as table:
            table.runs_all(lambda data: caches["plain files"].get(expiring(caches, data)))
        with common.table() as table:
            table.runs_all(read_session)
        # (the one name that a guard reports and loads)
        watching.watch([*common.LISTED, ("storklocker._limits", "_limits_with")], [folder])
        with common.log() as log:
            for kind, guard in GUARDS.items():
                try_cache(caches[kind], WRITERS[kind](caches[kind]), guard)
                try_table(caches[kind], WRITERS[kind](caches[kind]), log)
                try_told(caches[f"heard {kind}"], WRITERS[kind](caches[f"heard {kind}"]), log)
            expiry_is_guarded(caches["files"])
            try_report_only(caches["reporting"], log)
            try_sessions(log)
        try_check_on_set(caches["checking"])
        caches["default"].set("good", common.good(1))
        assert caches["default"].get("good") == common.good(1) and GUARD.counts.accepted == 1
        common.nothing_ran()


def configured(folder, port):
    """The caches, as a project configures them."""
    import django
    from django.conf import settings
    from django.core.management import call_command

    made = caches_of("", "storklocker.contrib.django", GUARDS, folder, port)
    heard = caches_of("heard ", "storklocker.contrib.django", dict.fromkeys(KINDS, HEARD), folder,
                      port)
    plain = caches_of("plain ", None, {}, folder, port)
    memory = made["memory"]

    def with_options(**options):
        return {**memory, "LOCATION": str(options), "OPTIONS": options}

    settings.configure(
        CACHES={
            "default": with_options(GUARD="test_django.GUARD"),
            "reporting": with_options(GUARD=REPORTING),
            "checking": with_options(GUARD=common.guard(), CHECK_ON_SET=True),
            **made, **heard, **plain,
        },
        DATABASES={"default": {"ENGINE": "django.db.backends.sqlite3", "NAME": ":memory:"}},
        SECRET_KEY="for the test",
    )
    django.setup()
    from django.core.cache import caches

    call_command("createcachetable", verbosity=0)
    return caches


def caches_of(front, module, guards, folder, port):
    """The settings of a cache of each kind, with the guard or without."""
    places = {"files": f"{folder}/{front}", "redis": f"redis://127.0.0.1:{port}/{3 + len(front)}"}
    made = {}
    for kind, name in KINDS.items():
        backend = f"{module}.{name}" if module else PLAIN[kind]
        options = {"GUARD": guards[kind], "FORGET": True} if module else {}
        made[front + kind] = {
            "BACKEND": backend,
            "LOCATION": places.get(kind, f"{front}{kind}".replace(" ", "_")),
            "OPTIONS": {**options, "MAX_ENTRIES": 10**6},
        }
    return made


def reader(cache, kind):
    """What a cache gives after a stranger wrote the bytes of an entry."""
    write = WRITERS[kind](cache)

    def read(data):
        cache.set("bad", 1)
        write("bad", data)
        return cache.get("bad")

    return read


def expiring(caches, data):
    """The key of a file whose expiry is this pickle."""
    cache = caches["plain files"]
    cache.set("x", 1)
    with open(cache._key_to_file("x"), "wb") as file:
        file.write(data + zlib.compress(pickle.dumps(1)))
    return "x"


def read_session(data, serializer=None):
    """What Django gives for a session that a stranger wrote who knows the secret key."""
    from django.contrib.sessions.serializers import PickleSerializer
    from django.core import signing

    class Raw:
        def dumps(self, value):
            return value

    text = signing.dumps(data, serializer=Raw, salt="s")
    return signing.loads(text, serializer=serializer or PickleSerializer, salt="s")


def try_table(cache, write, log):
    """Each pickle of the table is a miss, alone and among others; one line of log for a key."""
    log.clear()
    for name, data in TABLE.items():
        for ask in (cache.get, cache.has_key, cache.touch, lambda key: cache.get_many([key])):
            cache.set(name, 1)
            write(name, data)
            assert not ask(name)
    for name in TABLE:
        assert len([line for line in log if line.startswith(f"Cache entry {name!r} ")]) == 1, log


def try_told(cache, write, log):
    """The hook hears of each entry once, by its key, and the log is silent."""
    log.clear()
    TOLD.clear()
    cache.set("good", 1)
    for name, data in TABLE.items():
        cache.set(name, [1])
        write(name, data)
    assert cache.get_many([*TABLE, "good"]) == {"good": 1}
    assert sorted(refusal.context for refusal in TOLD) == sorted(TABLE)
    for name, data in TABLE.items():
        cache.set(name, [1])
        write(name, data)
        assert cache.get(name) is None and TOLD[-1].context == name
    assert len(TOLD) == 2 * len(TABLE) and not log, log


def try_report_only(cache, log):
    """A guard without a hook that doesn't enforce is heard in the log."""
    log.clear()
    value = storklocker.Limits()
    cache.set("k", value)
    assert cache.get("k") == value and "'k'" in log[0] and len(log) == 1, log


def try_check_on_set(cache):
    """What wouldn't be loaded is told of when it is stored."""
    cache.set("good", common.good(1))
    for store in (cache.set, cache.add):
        said = common.raises(lambda: store("bad", storklocker.Limits()))
        assert "ImportOffList" in said and "bad" not in cache


def try_sessions(log):
    """A refused session is empty."""
    from storklocker.contrib.django import session_serializer

    serializer = session_serializer(common.guard())
    log.clear()
    for data in [*TABLE.values(), pickle.dumps([1])]:
        assert read_session(data, serializer) == {}
    assert len(log) == 1 and "session" in log[0], log
    session = {"user": 1, "since": common.good(1)["when"]}
    assert serializer().loads(serializer().dumps(session)) == session


def write_memory(cache):
    """A stranger's way to the bytes of an entry."""

    def write(key, data):
        cache._cache[cache.make_key(key)] = data

    return write


def write_files(cache):
    """The same in a folder that others can write to."""

    def write(key, data):
        with open(cache._key_to_file(key), "wb") as file:
            file.write(pickle.dumps(time.time() + 99) + zlib.compress(data))

    return write


def write_redis(cache):
    """The same in a Redis that others can reach."""

    def write(key, data):
        cache.client.get_client(write=True).set(cache.make_key(key), data)

    return write


def write_database(cache):
    """The same in a database that others can write to."""

    def write(key, data):
        from django.db import connection

        words = [base64.b64encode(data).decode(), cache.make_key(key)]
        table = cache._table
        with connection.cursor() as cursor:
            cursor.execute(f"UPDATE {table} SET value = %s WHERE cache_key = %s", words)

    return write


WRITERS = {
    "memory": write_memory,
    "files": write_files,
    "database": write_database,
    "redis": write_redis,
}


def try_cache(cache, write, guard):
    """Good entries come back, hostile ones are misses."""
    for number in range(common.GOOD):
        cache.set(f"good{number}", common.good(number))
    for number in range(common.GOOD):
        assert cache.get(f"good{number}") == common.good(number)
    hostile = [f"bad{number}" for number in range(common.HOSTILE)]
    for number, key in enumerate(hostile):
        cache.set(key, 1)
        write(key, common.hostile(number))
    found = cache.get_many([*hostile, "good1"])
    assert found == {"good1": common.good(1)}, found
    guard.counts = type(guard.counts)()
    for number, key in enumerate(hostile):
        cache.set(key, 1)
        write(key, common.hostile(number))
        assert cache.get(key, "miss") == "miss"
        assert cache.get(key) is None  # it is forgotten
    assert guard.counts.refused == common.refused(), guard.counts.refused
    for count in (cache.incr, cache.decr, cache.incr_version, cache.decr_version):
        cache.set("bad", 1)
        write("bad", common.hostile(0))
        try:
            count("bad")
        except ValueError:
            continue
        raise AssertionError("a hostile entry was counted")
    for ask in (cache.touch, cache.has_key, cache.__contains__):
        cache.set("bad", 1)
        write("bad", common.hostile(0))
        assert ask("bad") is False and cache.add("bad", 2)  # it is forgotten
    cache.set("count", 1)
    assert cache.incr("count") == 2 and cache.decr("count", 2) == 0 and cache.get("count") == 0
    assert cache.incr_version("count") == 2 and cache.get("count", version=2) == 0
    assert cache.decr_version("count", version=2) == 1 and cache.get("count") == 0
    assert cache.touch("good1") and cache.get("good1") == common.good(1)
    assert cache.touch("good1", 99, 1) and not cache.touch("good1", 99, 2) and "good1" in cache


def expiry_is_guarded(cache):
    """The pickle in front of a file's value."""
    for number in range(common.HOSTILE):
        cache.set("x", 1)
        with open(cache._key_to_file("x"), "wb") as file:
            file.write(common.hostile(number) + zlib.compress(pickle.dumps(1)))
        assert cache.get("x", "miss") == "miss", number
        with open(cache._key_to_file("x"), "wb") as file:
            file.write(common.hostile(number) + zlib.compress(pickle.dumps(1)))
        assert not cache.touch("x"), number

"""cachelib, diskcache, dogpile.cache and shelves behind the guard."""

import functools
import importlib.util
import pickle
import socket
import tempfile
import threading
from pathlib import Path

import common
import poison
import watching

import storklocker

NEEDS = ("cachelib", "diskcache", "dogpile.cache", "redis", "$redis-server")
TABLE = poison.shapes(common.MARKS)
CLIENTS = ("pymemcache", "six", "pylibmc", "_pylibmc", "memcache", "cPickle", "gc")
"""Modules that dogpile.cache imports when it is configured."""


def run():
    """The test."""
    import dbm.dumb  # noqa: F401  (what is watched imports nothing new)

    with tempfile.TemporaryDirectory() as folder, common.redis_server(folder) as port:
        control(folder, port)
        watching.watch(common.LISTED, [folder], CLIENTS)
        with common.log() as log:
            try_cachelib(folder, port, log)
            try_diskcache(folder, log)
            try_dogpile(folder, port, log)
        try_reopened(folder)
        try_shelve(folder)
        common.nothing_ran()


def control(folder, port):
    """Each library without the guard runs the table, through the same stores."""
    import shelve

    import diskcache

    for cache in cachelibs(folder, port):
        with common.table() as table:
            table.runs_all(functools.partial(read_cachelib, cache))
    with diskcache.Cache(str(Path(folder, "disk"))) as cache, common.table() as table:
        table.runs_all(functools.partial(read_diskcache, cache))
    with diskcache.Cache(str(Path(folder, "keys"))) as cache, common.table() as table:
        table.runs_all(functools.partial(read_key, cache))
    for region, client in regions(folder, port, None):
        with common.table() as table:
            table.runs_all(functools.partial(read_region, region, client))
    with shelve.open(str(Path(folder, "plain"))) as shelf, common.table() as table:
        table.runs_all(functools.partial(read_shelf, shelf))
    if importlib.util.find_spec("pymemcache") is not None:
        with common.table() as table:
            table.runs_all(read_memcached)


def cachelibs(folder, port):
    """Caches in files, in memory and in Redis."""
    import cachelib

    return (
        cachelib.FileSystemCache(str(Path(folder, "cachelib")), threshold=0),
        cachelib.SimpleCache(threshold=10**6),
        cachelib.RedisCache("127.0.0.1", port, db=4),
    )


def try_cachelib(folder, port, log):
    """In files, in memory and in Redis; with the serializer alone, and as a whole."""
    from storklocker.contrib import cachelib as guarded

    for cache in cachelibs(folder, port):
        guard, is_file = common.guard(), hasattr(cache, "_get_filename")
        kind = guarded.serializer if cache.__class__.__name__ != "RedisCache" else (
            guarded.redis_serializer
        )
        cache.serializer = kind(guard)
        for number in range(common.GOOD):
            cache.set(f"good{number}", common.good(number))
        assert all(cache.get(f"good{it}") == common.good(it) for it in range(common.GOOD))
        for number in range(common.HOSTILE):
            # (a file is read up to the end of its first pickle)
            is_read = is_file and number % 5 == 3
            found = read_cachelib(cache, common.hostile(number))
            assert found == (common.good(number) if is_read else None), (cache, number)
        wanted = common.refused(row=None if is_file else "MoreBytes")
        assert guard.counts.refused == wanted, (cache, guard.counts.refused)
        log.clear()
        told = []
        for hook in (None, told.append):
            assert guarded.protected(cache, common.guard(hook)) is cache
            for data in TABLE.values():
                assert read_cachelib(cache, data) is None
            assert cache.get_many("bad", "good1") == [None, common.good(1)]
        lines = [line for line in log if line.startswith("Cache entry 'bad' ")]
        assert len(lines) == 1 and "ImportOffList" in lines[0], log
        assert {refusal.context for refusal in told} <= {"bad", ("bad", "good1")}
        assert len(told) == len(TABLE) + 1
    try:
        guarded.protected(type("MemcachedCache", (), {})(), common.guard())
    except TypeError as error:
        assert "no serializer" in str(error)
    else:
        raise AssertionError("its client would unpickle by itself")


def read_cachelib(cache, data):
    """What a cache gives after a stranger wrote the bytes of an entry."""
    cache.set("bad", 1)
    if hasattr(cache, "_get_filename"):
        path = Path(cache._get_filename("bad"))
        path.write_bytes(path.read_bytes()[:4] + data)
    elif hasattr(cache, "_write_client"):
        cache._write_client.set("bad", b"!" + data)
    else:
        cache._cache["bad"] = (cache._cache["bad"][0], data)
    return cache.get("bad")


def try_diskcache(folder, log):
    """In rows and in files, keys too."""
    import diskcache

    from storklocker.contrib import diskcache as guarded

    guard = common.guard()
    with diskcache.Cache(str(Path(folder, "disk")), disk=guarded.disk(guard)) as cache:
        large = [common.good(1), "x" * 100_000]
        with cache.transact():
            for number in range(common.GOOD):
                cache[("good", number)] = common.good(number)
        cache["large"] = large
        assert cache["large"] == large
        assert all(cache[("good", it)] == common.good(it) for it in range(common.GOOD))
        assert len(set(cache)) == len(cache)
        for number in range(common.HOSTILE):
            if number % 5 == 3:  # it is read up to the end of its first pickle
                assert read_diskcache(cache, common.hostile(number)) == common.good(number)
            else:
                common.raises(lambda: read_diskcache(cache, common.hostile(number)))
        assert guard.counts.refused == common.refused(row=None), guard.counts.refused
        for data in TABLE.values():
            common.raises(lambda: read_diskcache(cache, data))
            common.raises(lambda: read_diskcache(cache, data, in_file=True))
            common.raises(lambda: read_key(cache, data))
    told = []
    for hook in (None, told.append):
        log.clear()
        with guarded.cache(common.guard(hook))(str(Path(folder, "disk"))) as cache:
            for data in TABLE.values():
                assert read_diskcache(cache, data) is None
            assert cache.get("bad", 5, expire_time=True, tag=True) == (5, None, None)
            assert [line for line in log if "'bad'" in line] == ([] if hook else log[:1])
    assert {refusal.context for refusal in told} == {"bad"}


def read_diskcache(cache, data, in_file=False):
    """What a cache gives after a stranger wrote a row, or a file."""
    cache["bad"] = [1, "x" * 50_000] if in_file else [1]
    if in_file:
        ((name,),) = cache._sql("SELECT filename FROM Cache WHERE key = 'bad'").fetchall()
        Path(cache.directory, name).write_bytes(data)
    else:
        cache._sql("UPDATE Cache SET value = ? WHERE key = ?", (data, "bad"))
    return cache.get("bad")


def read_key(cache, data):
    """The keys of a cache after a stranger wrote one."""
    cache.clear()
    cache["bad"] = 1
    cache._sql("UPDATE Cache SET raw = 0, key = ?", (data,))
    return list(cache)


def try_reopened(folder):
    """Deques and indexes, which open their folder by themselves, and what pickles of them open."""
    import diskcache

    from storklocker.contrib import diskcache as guarded

    guard = common.guard()
    for number, (kind, plain) in enumerate(
        ((guarded.deque(guard), diskcache.Deque), (guarded.index(guard), diskcache.Index))
    ):
        made = kind(directory=str(Path(folder, f"own{number}"))) if number == 0 else kind(
            str(Path(folder, f"own{number}"))
        )
        if number == 0:
            made.append([1])
        else:
            made["bad"] = [1]
        for data in TABLE.values():
            made._cache._sql("UPDATE Cache SET value = ?", (data,))
            common.raises(lambda: made[0 if number == 0 else "bad"])
        assert issubclass(kind, plain)
        try:
            pickle.dumps(made)
        except (pickle.PicklingError, AttributeError):
            continue
        raise AssertionError("it would open its folder with a plain disk")
    fanout = diskcache.FanoutCache(str(Path(folder, "fanout")), disk=guarded.disk(guard))
    with fanout:
        for made in (fanout.cache("a"), fanout.deque("a")._cache, fanout.index("a")._cache):
            for data in TABLE.values():
                common.raises(lambda: read_diskcache(made, data))


def regions(folder, port, guard):
    """Regions in Redis, in a file and in memory, each with a stranger's way to its bytes."""
    import dbm

    import redis
    from dogpile.cache import make_region

    from storklocker.contrib import dogpile as guarded

    client, memory = redis.Redis("127.0.0.1", port=port, db=5), {}
    path = str(Path(folder, f"dbm{guard is None}"))
    places = {"host": "127.0.0.1", "port": port, "db": 5}
    words = {} if guard is None else guarded.serialization(guard)
    wrap = [] if guard is None else [guarded.proxy(guard)]

    def write_file(key, data):
        with dbm.open(path, "w") as opened:
            opened[key] = data

    for name, arguments, write in (
        ("redis", places, client.set),
        ("dbm", {"filename": path}, write_file),
        ("memory_pickle", {"cache_dict": memory}, memory.__setitem__),
    ):
        region = make_region(**words)
        region.configure(f"dogpile.cache.{name}", arguments=arguments, wrap=wrap)
        yield region, write


def read_region(region, write, data):
    """What a region gives after a stranger wrote the bytes of an entry."""
    write("bad", b'{"ct": 1, "v": 2}|' + data)
    return region.get("bad", ignore_expiration=True)


def try_dogpile(folder, port, log):
    """In Redis, in a file and in memory: a refused value is made anew."""
    from dogpile.cache.api import NO_VALUE

    guard = common.guard()
    for region, write in regions(folder, port, guard):
        log.clear()
        guard.counts = type(guard.counts)()
        for number in range(common.GOOD):
            region.set(f"good{number}", common.good(number))
        assert all(region.get(f"good{it}") == common.good(it) for it in range(common.GOOD))
        for number in range(common.HOSTILE):
            assert read_region(region, write, common.hostile(number)) is NO_VALUE, number
            assert region.get_multi(["bad", "good1"]) == [NO_VALUE, common.good(1)]
        assert guard.counts.refused == common.refused(times=2), guard.counts.refused
        for data in TABLE.values():
            assert read_region(region, write, data) is NO_VALUE
        assert region.get_or_create("bad", lambda: "made anew") == "made anew"
        assert log == log[:1] and ("'bad'" in log[0] if log else write.__name__ != "set"), log
    told = []
    for region, write in regions(folder, port, common.guard(told.append)):
        read_region(region, write, TABLE["eval"])
    assert [refusal.context for refusal in told] == ["bad"] * 3
    try_memcached()


def try_memcached():
    """A backend whose client unpickles by itself is turned away; a reader that doesn't isn't."""
    from dogpile.cache import make_region

    from storklocker.contrib import dogpile as guarded

    proxy = guarded.proxy(common.guard())
    for name in ("dogpile.cache.pymemcache", "dogpile.cache.pylibmc", "dogpile.cache.memcached"):
        region = make_region(**guarded.serialization(common.guard()))
        try:
            region.configure(name, arguments={"url": ["127.0.0.1:1"]}, wrap=[proxy])
        except TypeError as error:
            assert "unpickles by itself" in str(error)
        except ImportError:  # there is no such client
            pass
        else:
            raise AssertionError(f"{name} would be loaded without the guard")
    region = make_region().configure("dogpile.cache.memory", wrap=[proxy])
    try:
        region.get("x")
    except TypeError as error:
        assert "deserializer" in str(error)


def read_memcached(data):
    """What a region gives whose server marks each value as a pickle."""
    from dogpile.cache import make_region

    server = socket.create_server(("127.0.0.1", 0))

    def serve():
        stream = server.accept()[0].makefile("rwb")
        for line in stream:
            key = line.split()[1]
            stream.write(b"VALUE %b 1 %d\r\n%b\r\nEND\r\n" % (key, len(data), data))
            stream.flush()

    threading.Thread(target=serve, daemon=True).start()
    place = f"127.0.0.1:{server.getsockname()[1]}"
    make_region().configure("dogpile.cache.pymemcache", arguments={"url": [place]}).get("k")


def try_shelve(folder):
    """A file of values by names."""
    from storklocker.contrib import shelve

    guard = common.guard()
    with shelve.open(Path(folder, "shelf"), guard) as shelf:
        for number in range(common.GOOD):
            shelf[f"good{number}"] = common.good(number)
        assert all(shelf[f"good{it}"] == common.good(it) for it in range(common.GOOD))
        for number in range(common.HOSTILE):
            if number % 5 == 3:  # a shelf reads one pickle, and leaves what stands behind it
                assert read_shelf(shelf, common.hostile(number)) == common.good(number)
            else:
                common.raises(lambda: read_shelf(shelf, common.hostile(number)), TypeError)
        assert guard.counts.refused == common.refused(row=None), guard.counts.refused
        for data in TABLE.values():
            for read in (read_shelf, read_items):
                common.raises(lambda: read(shelf, data))
    told = []
    guard = storklocker.Guard(storklocker.AllowList([]), on_refusal=told.append)
    with shelve.open(Path(folder, "shelf"), guard) as shelf:
        common.raises(lambda: read_shelf(shelf, TABLE["eval"]))
    assert told[0].context == "bad", told


def read_shelf(shelf, data):
    """What a shelf gives after a stranger wrote the bytes of an entry."""
    shelf.dict[b"bad"] = data
    return shelf["bad"]


def read_items(shelf, data):
    """The same by another way."""
    shelf.dict[b"bad"] = data
    return shelf.get("bad"), dict(shelf.items())

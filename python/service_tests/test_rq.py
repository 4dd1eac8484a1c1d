"""RQ: a worker behind the guard, hostile jobs, names that RQ would import by itself."""

import collections
import decimal
import os
import pickle
import tempfile
import zlib
from pathlib import Path

import common
import poison
import watching

import storklocker

NEEDS = ("rq", "redis", "$redis-server")
WORKER = """
import os, sys, redis, rq, common, watching, rq.results
from storklocker.contrib import rq as guarded
def told(refusal):
    line = f"{(refusal.context or {}).get('id')} {refusal.verdict.pair}"
    os.write(log, line.encode() + b"\\n")
log = os.open(sys.argv[3], os.O_WRONLY | os.O_APPEND)
Queue, Worker = guarded.classes(common.guard(told), getattr(rq, sys.argv[2]))
connection = redis.Redis("127.0.0.1", port=int(sys.argv[1]))
watching.watch(common.LISTED)
Worker([Queue("jobs", connection=connection)], connection=connection).work(burst=True)
"""
PLAIN = """
import sys, redis, rq
connection = redis.Redis("127.0.0.1", port=int(sys.argv[1]))
rq.Worker([rq.Queue("plain", connection=connection)], connection=connection).work(burst=True)
"""
TABLE = poison.shapes(common.MARKS)
QUEUES = [("collections", "deque"), ("collections", "OrderedDict")]
FIELDS = ("data", "meta", "success_callback_name", "failure_callback_name")


def run():
    """The test: many jobs in one process, and some in a process each, as RQ's own worker does."""
    with tempfile.TemporaryDirectory() as folder, common.redis_server(folder) as port:
        control(port, Path(folder, "plain"))
        for kind, count in (("SimpleWorker", common.GOOD), ("Worker", 20)):
            work(kind, count, port, Path(folder, kind))
        common.nothing_ran()
        try_sending_again(port)
        try_methods()
        values = named(common.MARKS)
        watching.watch([*common.LISTED, *QUEUES, ("builtins", "iter")])
        try_results(port)
    try_report_only()
    try_serializer(values)
    try_spawning()
    common.nothing_ran()


def named(folder):
    """Jobs in each form that RQ takes, which name as a text what RQ would import by itself."""

    def jobs(path):
        line, trip = f"touch {path}", f"{poison.module(path)}.Trip"
        written = poison.WORDS % str(path)
        return {
            "tuple": ("os.system", None, (line,), {}),
            "list": ["os.system", None, (line,), {}],
            "deque": collections.deque(["os.system", None, (line,), {}]),
            "list_in_list": ["os.system", None, [line], {}],
            "dict_of_arguments": ("os.system", None, {line: 1}, {}),
            "set_of_arguments": ("os.system", None, {line}, {}),
            "frozenset_of_arguments": ["os.system", None, frozenset([line]), {}],
            "by_keyword": ("os.system", None, (), {"command": line}),
            "ordered": ("os.system", None, (line,), collections.OrderedDict()),
            "zero": ("os.system", 0, (line,), {}),
            "false": ("os.system", False, (line,), {}),
            "empty_text": ["os.system", "", (line,), {}],
            "empty_list": ("os.system", [], (line,), {}),
            "empty_tuple": ("os.system", (), (line,), {}),
            "posix": ("posix.system", None, (line,), {}),
            "static": ("os.path.os.system", None, (line,), {}),
            "through": ("shutil.os.system", None, (line,), {}),
            "eval": ("builtins.eval", None, (written,), {}),
            "exec": ["builtins.exec", None, [written], {}],
            "call": ("subprocess.call", None, (["touch", str(path)],), {}),
            "open": ("io.open", None, (str(path), "w"), {}),
            "dict": {trip: 0, None: 0, (): 0, 1: 0},
            "ordered_dict": collections.OrderedDict.fromkeys([trip, None, (), 1]),
            "imported": (trip, None, (), {}),
            "imported_list": [trip, None, None, None],
        }

    return {f"named_{word}": jobs(Path(folder, f"named_{word}"))[word] for word in jobs(Path("x"))}


def hostile_jobs(queue, connection, table, folder):
    """Jobs of each poisoned pickle and of each name, and what a stranger writes into a field."""
    jobs = []

    def put(field, data):
        jobs.append(queue.enqueue("jobs.add", 1, 1))
        connection.hset(jobs[-1].key, field, data)

    for data in table.values():
        put("data", zlib.compress(data))
    for value in named(folder).values():
        put("data", zlib.compress(pickle.dumps(value)))
    for field in FIELDS[2:]:
        put(field, f"{poison.module(Path(folder, field))}.Trip")
    connection.hset(jobs[-1].key, "data", zlib.compress(pickle.dumps(("jobs.no", None, (), {}))))
    return jobs


def control(port, log):
    """RQ's own worker runs every pickle, every name and every callback of the table."""
    import redis
    import rq

    connection = redis.Redis("127.0.0.1", port=port)
    with common.table() as table:
        queue = rq.Queue("plain", connection=connection)
        hostile_jobs(queue, connection, table.shapes, table.folder)
        with common.process("-c", PLAIN, str(port), log=log) as worker:
            assert worker.wait(2 * common.PATIENCE) == 0, log.read_text()
        table.assert_all_ran([*table.shapes, *named(table.folder), *FIELDS[2:]])


def work(kind, count, port, log):
    """Good jobs around hostile ones, until the queue is empty."""
    import redis

    from storklocker.contrib import rq as guarded

    connection = redis.Redis("127.0.0.1", port=port)
    queue = guarded.classes(common.guard())[0]("jobs", connection=connection)
    good = [queue.enqueue("jobs.add", number, 1) for number in range(count // 2)]
    bad = odd_jobs(queue, connection)
    bad += hostile_jobs(queue, connection, TABLE, common.MARKS)
    good += [queue.enqueue("jobs.finish", common.good(it)) for it in range(count // 2)]
    told = log.with_suffix(".told")
    told.touch()
    with common.process("-c", WORKER, str(port), kind, str(told), log=log) as worker:
        assert worker.wait(2 * common.PATIENCE) == 0, log.read_text()
    done = queue.job_class.fetch_many([job.id for job in good], connection)
    half = count // 2
    results = [it.return_value() for it in done]
    assert results == [*range(1, half + 1), *map(common.good, range(half))], log.read_text()
    assert [job.get_status() for job in bad] == ["failed"] * len(bad)
    for number, job in enumerate(bad[: 2 * common.HOSTILE]):
        job.refresh()
        assert common.SAID[number % 5] in job.exc_info, job.exc_info
    lines = told.read_text()
    # (what is accepted and raises is no refusal)
    wanted = {job.id for at, job in enumerate(bad) if at >= 2 * common.HOSTILE or at % 5 != 4}
    assert wanted == {line.split()[0] for line in lines.splitlines()}
    trip = poison.module(common.MARKS / "named_imported_list")
    assert f"{bad[-3].id} ('{trip}', 'Trip')" in lines, lines[-2000:]


def try_sending_again(port):
    """A refused job, which its queue sends again once the list has the name that it lacked."""
    import redis
    import rq

    from storklocker.contrib import rq as guarded

    connection = redis.Redis("127.0.0.1", port=port)

    def made(*names):
        guard = storklocker.Guard(storklocker.AllowList([("jobs", "add"), *names]))
        Queue, Worker = guarded.classes(guard, rq.SimpleWorker)
        queue = Queue("again", connection=connection)
        return queue, Worker([queue], connection=connection)

    queue, worker = made()
    job = queue.enqueue("jobs.add", decimal.Decimal(2), 3)
    worker.work(burst=True)
    assert job.get_status() == "failed"
    queue, worker = made(("decimal", "Decimal"))
    queue.failed_job_registry.requeue(job.id)
    worker.work(burst=True)
    assert (job.get_status(), queue.fetch_job(job.id).return_value()) == ("finished", 5)


def odd_jobs(queue, connection):
    """Jobs whose pickle or metadata is one of the hostile pickles that every adapter meets."""
    jobs = [queue.enqueue("jobs.add", 1, 1) for _ in range(2 * common.HOSTILE)]
    for number, job in enumerate(jobs):
        data = common.hostile(number)
        if number < common.HOSTILE:
            connection.hset(job.key, "data", zlib.compress(data))
        else:
            connection.hset(job.key, "meta", data)
    return jobs


def try_results(port):
    """Results that a stranger wrote, in the stream, read with the class and with the serializer."""
    import base64

    import redis
    from rq.job import Job

    from storklocker.contrib import rq as guarded

    connection, guard = redis.Redis("127.0.0.1", port=port), common.guard()
    queue = guarded.classes(guard)[0]("results", connection=connection)
    plain = guarded.serializer(guard)
    for data in [*TABLE.values(), common.hostile(3)]:
        job = queue.enqueue("jobs.add", 1, 1)
        fields = {"type": 1, "return_value": base64.b64encode(data).decode()}
        connection.xadd(f"rq:results:{job.id}", fields)
        connection.hset(job.key, "meta", data)
        common.raises(queue.fetch_job(job.id).return_value)
        common.raises(lambda: queue.job_class.fetch(job.id, connection=connection).get_meta())
        common.raises(lambda: Job.fetch(job.id, connection, serializer=plain).get_meta())


def try_report_only():
    """A guard that doesn't enforce reports the pair, and lets RQ import and run the function."""
    from storklocker.contrib import rq as guarded

    told = []
    guard = storklocker.Guard(
        storklocker.AllowList([]), on_refusal=told.append, enforce=False
    )
    data = pickle.dumps(("os.getpid", None, (), {}))
    assert guarded.serializer(guard).loads(data) == ("os.getpid", None, (), {})
    job = guarded.classes(guard)[0].job_class("the id", connection=object())
    job.data = data
    assert job.func is os.getpid
    assert [refusal.verdict.pair for refusal in told] == [("os", "getpid")] * 2
    assert told[1].context == {"id": "the id"} and not told[1].enforced
    assert told[1].missing == (("os", "getpid"),)


def try_methods():
    """Methods of listed classes, of objects that say something else, and nested classes."""
    from storklocker.contrib import rq as guarded

    sizes = ("bytes", "bytearray")
    names = ["add", "Image", "Image.resize", "Image.made", "Image.Part.cut", "Other"]
    guard = storklocker.Guard(storklocker.AllowList({"jobs": names, "builtins": sizes}))
    kind = guarded.classes(guard)[0].job_class

    def function(*value):
        job = kind("id", connection=object())
        job.data = pickle.dumps(value)
        return job.func

    import jobs

    image = jobs.Image(2)
    assert function("resize", image, (), {})(3) == 6
    assert function("made", jobs.Image, (), {})().size == 1
    assert function("jobs.Image.Part.cut", None, (), {})() == "cut"
    for size in sizes:  # what the guard gives pickles for it, which doesn't take all memory
        assert "substitute" in repr(function(f"builtins.{size}", None, (1 << 40,), {}))
    image.resize = jobs.add
    for value in (
        ("resize", image, (), {}),  # the object's own attribute comes before the class's
        ("shrink", jobs.Image(2), (), {}),
        ("jobs.Image.shrink", None, (), {}),
        ("jobs.resize", None, (), {}),
        ("jobs.Image.Part", None, (), {}),
        ("resize", jobs.Other(), (), {}),
        (b"jobs.Image.resize", None, (), {}),
        ("jobs." + "a." * 100_000 + "b", None, (), {}),
    ):
        assert "ImportOffList" in common.raises(lambda: function(*value)), value
    job = kind("id", connection=object())
    job.data = pickle.dumps(("resize", jobs.Other(), (), {}))
    jobs.Other.__qualname__ = "Image"  # as a BUILD can do it
    assert "ImportOffList" in common.raises(lambda: job.func)


def try_serializer(values):
    """Whatever unpacks into four and begins with a name is judged; what can't be a job isn't."""
    from storklocker.contrib import rq as guarded

    guard = common.guard(more=QUEUES)
    words = guarded.serializer(guard)
    for name, value in values.items():
        assert "ImportOffList" in common.raises(lambda: words.loads(pickle.dumps(value))), name
    for value in ("done", b"done", {"id": 1, "a": 2}, [1, 2, 3, 4], ["a", "b", "c", "d"], 5, None,
                  dict.fromkeys("abcd"), dict.fromkeys(["id", "title", "name", "x"]),
                  ("jobs.add", None, (1, 2), {})):
        assert words.loads(pickle.dumps(value)) == value, value
    listed = storklocker.Guard(storklocker.AllowList([("builtins", "iter")]))
    data = pickle.dumps(iter(["os.system", None, ("true",), {}]))
    assert "ImportOffList" in common.raises(lambda: guarded.serializer(listed).loads(data))


def try_spawning():
    """A worker that runs its jobs in a new interpreter is turned away."""
    import rq

    from storklocker.contrib import rq as guarded

    class SpawnWorker(rq.Worker):
        def fork_work_horse(self, job, queue):
            os.spawnv(os.P_NOWAIT, "python", ["-c", ""])

    try:
        guarded.classes(common.guard(), SpawnWorker)
    except TypeError as error:
        assert "new interpreter" in str(error)
    else:
        raise AssertionError("its jobs would run without the guard")

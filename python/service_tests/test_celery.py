"""Celery: a worker behind the guard, hostile messages in its queue, hostile results."""

import collections
import contextlib
import os
import pickle
import sys
import tempfile
import time
import uuid
from pathlib import Path

import celery
import common
import poison
import watching

NEEDS = ("celery", "redis", "sqlalchemy", "$redis-server")
WORDS = ("-m", "celery", "-A", "celery_app", "worker", "-c", "2", "-l", "WARNING")
ALONE = ("--without-mingle", "--without-gossip", "--without-heartbeat")
STALLED = 20
"""Seconds without a mark, after which a message gets another worker, and then twice as long."""
TABLE = poison.shapes(common.MARKS)
CLIENTS = ("sqlite3", "_sqlite3", "pylibmc", "_pylibmc", "memcache", "six", "cPickle", "gc")
"""Modules that the backends import when they connect."""
MISSHAPEN = (b"K\x01.", b"N.", pickle.dumps([1, 2]), pickle.dumps({"args": 1}), pickle.dumps("ab"))
"""What is accepted and is no task."""


def publish(app, body, task="jobs.add", protocol=2, queue="celery", **more):
    """Puts a message into a queue as a stranger would who can reach the broker."""
    from kombu import Exchange, Producer, Queue

    name = str(uuid.uuid4())
    headers = dict.fromkeys(("group", "parent_id", "eta", "expires"))
    headers.update(lang="py", task=task, id=name, root_id=name, retries=0)
    headers.update(argsrepr="()", kwargsrepr="{}", timelimit=[None, None], origin="stranger")
    headers.update(more)
    if protocol == 1:
        headers = {}
    if headers.get("id") is None:
        headers.pop("id", None)
    with app.connection() as connection, connection.channel() as channel:
        exchange = Exchange("celery")
        Producer(channel, exchange=exchange, routing_key=queue).publish(
            body,
            declare=[Queue(queue, exchange, routing_key=queue)],
            content_type="application/x-python-serialize",
            content_encoding="binary",
            headers=headers,
            correlation_id=name,
            reply_to="",
        )
    return name


def first_protocol(data):
    """A message of protocol 1 that has the pickle before its arguments, and drops what it leaves:
    Celery's worker ends if it cannot pickle arguments for its processes.
    """
    front = b"}(\x8c\x04task\x8c\x08jobs.add\x8c\x02id\x8c\x01x\x8c\x04args"
    return around(front, data, b"0)\x8c\x06kwargs}u.")


def second_protocol(data):
    """The body of a message of protocol 2, with the pickle among the arguments."""
    return around(b"((", data, b"t}}t.")


def around(front, data, end):
    """A pickle within another one, which keeps its protocol."""
    proto, opcodes = (data[:2], data[2:-1]) if data.startswith(b"\x80") else (b"", data[:-1])
    return proto + front + opcodes + end


def is_refused():
    """Whether the adapter refuses this Celery: before 5.2.2, a stored exception calls anything."""
    if celery.VERSION[:3] >= (5, 2, 2):
        return False
    from storklocker.contrib.kombu import register

    why = common.raises(lambda: register(common.guard(), celery.Celery("tests")), RuntimeError)
    assert "Celery before 5.2.2" in why, why
    print("skipped: Celery's workers: 5.2.2 is wanted, and the adapter refuses older ones")
    return True


def run():
    """The test."""
    if is_refused():
        return
    with tempfile.TemporaryDirectory() as folder, common.redis_server(folder) as port:
        refused = Path(folder, "refused")
        refused.touch()
        os.environ.update(REDIS_PORT=str(port), REFUSED_LOG=str(refused))
        control(Path(folder, "plain"))
        import celery_app

        try_worker(celery_app, Path(folder, "worker"), refused)
        common.nothing_ran()
        import celery.backends.database  # noqa: F401  (what is watched imports nothing new)
        import celery.backends.rpc  # noqa: F401
        import sqlalchemy.dialects.sqlite  # noqa: F401

        watching.watch(common.LISTED, [folder], CLIENTS)
        try_results(celery_app.app)
        try_waiting(celery_app)
        try_queues(celery_app)
        try_database(folder)
        try_memcached()
        try_kombu(port)
        common.nothing_ran()


def control(log):
    """Celery without the guard: its worker and its client run the table."""
    os.environ["PLAIN"] = "1"
    import celery_app

    for body, protocol in ((second_protocol, 2), (first_protocol, 1)):
        with common.table() as table:
            messages = {name: body(data) for name, data in table.shapes.items()}
            run_table(celery_app.app, table, messages, protocol, log)
    with common.table() as table:
        table.runs_all(lambda data: read_result(celery_app.app, data))
    del os.environ["PLAIN"], sys.modules["celery_app"]


def run_table(app, table, messages, protocol, log):
    """Workers run the table, each some messages from a queue of its own, because a message may end
    or stall its worker. What has left no mark by then goes to other workers: to each less of it, at
    last one message, and to each more time.
    """
    end = time.monotonic() + common.PATIENCE
    size, seconds = len(messages), STALLED
    while table.left(messages) and time.monotonic() < end:
        left, size = table.left(messages), max(1, size // 4)
        for at in range(0, len(left), size):
            queue, names = str(uuid.uuid4()), left[at : at + size]
            for name in names:
                publish(app, messages[name], protocol=protocol, queue=queue)
            words = (*WORDS, *ALONE, "-Q", queue)
            with common.process(*words, log=log, is_killed=True, C_FORCE_ROOT="1") as worker:
                wait_for_marks(table, names, worker, seconds, end)
        seconds *= 2
    table.assert_all_ran(table.shapes, 0)


def wait_for_marks(table, names, worker, seconds, end):
    """Waits until all marks are there, the worker has ended, or so long none is added."""
    left, until = table.left(names), time.monotonic() + seconds
    while left and worker.poll() is None and time.monotonic() < min(until, end):
        time.sleep(0.1)
        now = table.left(names)
        if len(now) < len(left):
            left, until = now, time.monotonic() + seconds


def read_result(app, data):
    """The result that a stranger wrote, as a client reads it."""
    name = str(uuid.uuid4())
    app.backend.client.set(f"celery-task-meta-{name}", data)
    return app.AsyncResult(name).get(timeout=5)


def try_worker(celery_app, log, refused):
    """Good tasks around hostile messages, each of which is a failure of its task."""
    app, half = celery_app.app, common.GOOD // 2
    with common.process(*WORDS, log=log, C_FORCE_ROOT="1") as worker:
        results = [celery_app.add.delay(number, 1) for number in range(half)]
        names = [publish(app, common.hostile(it)) for it in range(common.HOSTILE)]
        named = [publish(app, data) for data in TABLE.values()]
        named += [publish(app, second_protocol(data)) for data in TABLE.values()]
        first = [publish(app, first_protocol(data), protocol=1) for data in TABLE.values()]
        for data in TABLE.values():
            publish(app, data, task="nobody.knows", id=None)
        unknown = [publish(app, data, task="nobody.knows") for data in TABLE.values()]
        for data in MISSHAPEN:
            publish(app, data, protocol=1)
        odd = [publish(app, data) for data in MISSHAPEN][0]
        silent = publish(app, common.hostile(0), ignore_result=True)
        results += [celery_app.finish.delay(common.good(it)) for it in range(half)]
        values = [result.get(timeout=common.PATIENCE) for result in results]
        tell_everyone(app)
        assert celery_app.add.delay(2, 3).get(timeout=common.PATIENCE) == 5
        assert worker.poll() is None, log.read_text()
        for name in [*names, *named, *first]:
            said = raised(app.AsyncResult(name))
            assert "DecodeError" in said and "refused" in said, said
        assert all("NotRegistered" in raised(app.AsyncResult(name)) for name in unknown)
        assert "isn't a task" in raised(app.AsyncResult(odd))
        assert app.AsyncResult(silent).state == "PENDING"
    assert values == [*range(1, half + 1), *(common.good(it) for it in range(half))]
    # (the client, whose list lacks Celery's exceptions, tells of unknown tasks)
    lines = [it for it in refused.read_text().splitlines() if not it.startswith("None ")]
    told = {line.split()[1] for line in lines}
    # (what is accepted and raises is no refusal)
    wanted = {name for at, name in enumerate(names) if at % 5 != 4}
    assert told == {*wanted, *named, *first, silent}, (len(told), lines[:3])
    assert all(line.startswith("jobs.add ") for line in lines)
    reasons = collections.Counter(line.split()[2] for line in lines if line.split()[1] in wanted)
    assert reasons == common.refused(), reasons
    has_no_body(log.read_bytes())
    results.clear()  # (a result asks Redis when it goes)


def has_no_body(text):
    """The log of the worker tells of refusals, and shows no part of a body."""
    assert b"Task None with id None was refused" in text  # in remote control
    for word in (str(common.MARKS).encode(), b"touch /", b"\\x80", b"\\x8c"):  # parts of bodies
        assert word not in text, text[max(0, text.index(word) - 500) :][:1000]


def tell_everyone(app):
    """Hostile messages where workers listen to one another: remote control, and events."""
    from kombu import Exchange, Producer

    control, events = Exchange("celery.pidbox", "fanout"), Exchange("celeryev", "topic")
    places = [(control, "")]
    places += [(events, f"worker.{word}") for word in ("heartbeat", "online", "elect")]
    with app.connection() as connection, connection.channel() as channel:
        for exchange, key in places:
            for data in TABLE.values():
                Producer(channel, exchange=exchange, routing_key=key).publish(
                    data,
                    content_type="application/x-python-serialize",
                    content_encoding="binary",
                )


def raised(result):
    """The exception that a client gets for a task, with its class."""
    try:
        return repr(result.get(timeout=common.PATIENCE))
    except Exception as error:
        return f"{type(error).__name__}: {error}"


def try_results(app):
    """Results that a stranger wrote are failures of their own tasks."""
    hostile = [*TABLE.values(), *map(common.hostile, range(common.HOSTILE))]
    for number, data in enumerate([*hostile, *MISSHAPEN]):
        name = str(uuid.uuid4())
        app.backend.client.set(f"celery-task-meta-{name}", data)
        result = app.AsyncResult(name)
        said = raised(result)
        assert said.startswith("DecodeError"), (number, said)
        assert result.state == "FAILURE" and result.failed()
        if len(TABLE) <= number < len(hostile):
            assert common.SAID[(number - len(TABLE)) % 5] in said, said
        app.backend.remove_pending_result(result)


def try_waiting(celery_app):
    """A hostile result that arrives while others are waited for is a failure of its own task."""
    app = celery_app.app
    exception = {"exc_module": "os", "exc_type": "system", "exc_message": ["touch x"]}
    stored = {"status": "FAILURE", "result": exception, "traceback": None, "children": []}
    bare = pickle.dumps({"status": "SUCCESS"})
    shapes = [*TABLE.values(), *MISSHAPEN, pickle.dumps(stored), bare]
    good = app.AsyncResult(str(uuid.uuid4()))
    bad = [app.AsyncResult(str(uuid.uuid4())) for _ in shapes]
    app.backend.add_pending_result(good)
    for result, data in zip(bad, shapes):
        app.backend.add_pending_result(result)
        key = f"celery-task-meta-{result.id}"
        app.backend.client.set(key, data)
        app.backend.client.publish(key, data)
    app.backend.store_result(good.id, "good", "SUCCESS")
    assert good.get(timeout=common.PATIENCE) == "good"
    for result in bad[:-1]:
        assert raised(result).split(":")[0] in ("DecodeError", "SecurityError"), raised(result)
    lost = app.AsyncResult(str(uuid.uuid4()))  # told only after the connection was lost
    app.backend.add_pending_result(lost)
    app.backend.client.set(f"celery-task-meta-{lost.id}", TABLE["eval"])
    app.backend.result_consumer._reconnect_pubsub()
    assert raised(lost).startswith("DecodeError")


def try_queues(celery_app):
    """The same with results that come as messages, from a queue for each client."""
    from kombu import Exchange, Producer

    app = celery_app.application(backend="rpc://")
    from storklocker.contrib.kombu import register

    told = []
    register(common.guard(told.append), app)
    good, early = (app.AsyncResult(str(uuid.uuid4())) for _ in range(2))
    bad = [app.AsyncResult(str(uuid.uuid4())) for _ in TABLE]
    for result in (good, *bad):
        app.backend.add_pending_result(result)

    def send(result, body, **more):
        with app.connection() as connection, connection.channel() as channel:
            queue = app.backend.binding(channel)
            queue.declare()
            Producer(channel, exchange=Exchange(""), routing_key=queue.name).publish(
                body, correlation_id=result.id, **more)

    raw = {"content_type": "application/x-python-serialize", "content_encoding": "binary"}
    for result, data in zip(bad, TABLE.values()):
        send(result, data, **raw)
    meta = {"task_id": good.id, "status": "SUCCESS", "result": 5, "traceback": None, "children": []}
    send(good, meta, serializer="pickle")
    assert good.get(timeout=common.PATIENCE) == 5
    assert all(raised(result).startswith("DecodeError") for result in bad)
    assert {refusal.context["id"] for refusal in told} == {result.id for result in bad}
    send(early, TABLE["eval"], **raw)
    app.backend.result_consumer.stop()
    assert early.state == "FAILURE"


def try_database(folder):
    """Results in a database, whose columns SQLAlchemy unpickles by itself."""
    import sqlite3

    import celery
    from celery.backends.database import models

    from storklocker.contrib.kombu import register

    path = Path(folder, "results.db")
    app = celery.Celery("results", backend=f"db+sqlite:///{path}")
    app.conf.update(result_serializer="pickle", accept_content=["pickle"])
    told = []
    register(common.guard(told.append), app)
    for number, data in enumerate([*map(common.hostile, range(common.HOSTILE)), *TABLE.values()]):
        app.backend.store_result(f"id{number}", common.good(number), "SUCCESS")
        assert app.AsyncResult(f"id{number}").result == common.good(number)
        with contextlib.closing(sqlite3.connect(path)) as database, database:
            words = (data, f"id{number}")
            database.execute("UPDATE celery_taskmeta SET result = ? WHERE task_id = ?", words)
        app.backend._cache.clear()
        result = app.AsyncResult(f"id{number}")
        said = raised(result)
        assert "DecodeError" in said and result.state == "FAILURE", said
        assert number >= common.HOSTILE or common.SAID[number % 5] in said, said
        assert number % 5 == 4 or told[-1].context["id"] == f"id{number}"
    assert models.Task.__table__.c.result.type.pickler is not pickle


def try_memcached():
    """A backend whose client unpickles by itself is turned away."""
    import celery

    from celery.exceptions import ImproperlyConfigured

    from storklocker.contrib.kombu import register

    app = celery.Celery("results", backend="cache+memcached://127.0.0.1:1/")
    register(common.guard(), app)
    try:
        app.backend
    except TypeError as error:
        assert "unpickles by itself" in str(error)
    except ImproperlyConfigured:  # there is no such client
        pass
    else:
        raise AssertionError("its results would be loaded without the guard")
    app = celery.Celery("results", backend="cache+memory://")
    register(common.guard(), app)
    assert app.backend.client is not None


def try_kombu(port):
    """Kombu alone: messages of a queue in Redis."""
    from kombu import Connection

    from storklocker.contrib.kombu import CONTENT_TYPE, register

    guard, said = common.guard(), []
    register(guard)

    def refuse(message, error):
        said.append(str(error))
        message.reject()

    with Connection(f"redis://127.0.0.1:{port}/3") as connection:
        queue = connection.SimpleQueue("plain", serializer="pickle", accept=["pickle"])
        words = {"content_type": CONTENT_TYPE, "content_encoding": "binary", "serializer": None}
        for number in range(common.HOSTILE):
            queue.put(common.hostile(number), **words)
        for number in range(common.GOOD):
            queue.put(common.good(number))
        queue.consumer.on_decode_error = refuse
        for number in range(common.GOOD):
            message = queue.get(timeout=common.PATIENCE)
            assert message.payload == common.good(number)
            message.ack()
        queue.close()
    assert len(said) == common.HOSTILE
    assert all(common.SAID[at % 5] in line for at, line in enumerate(said)), said
    assert guard.counts.refused == common.refused(), guard.counts.refused

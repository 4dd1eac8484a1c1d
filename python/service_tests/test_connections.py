"""Connections and managers of multiprocessing behind the guard."""

import contextlib
import tempfile
import threading
import time
from pathlib import Path

import common
import poison
import watching

from storklocker.contrib import multiprocessing as guarded

NEEDS = ()
TABLE = poison.shapes(common.MARKS)
TOKEN = ("multiprocessing.managers", "Token")
SERVER = """
import sys, common, storklocker, watching
from storklocker.contrib import multiprocessing as guarded
watching.watch(common.LISTED)
listener = guarded.Listener(("127.0.0.1", int(sys.argv[1])), common.guard(), authkey=b"key")
while True:
    connection = listener.accept()
    while True:
        try:
            connection.send(("got", connection.recv()))
        except EOFError:
            break
        except storklocker.Refused as error:
            connection.send(("refused", str(error)))
        except Exception as error:
            connection.send(("raised", type(error).__name__))
"""


MANAGER = """
import sys, common, jobs, watching
from multiprocessing.managers import BaseManager
from storklocker.contrib import multiprocessing as guarded
watching.watch([*common.LISTED, ("multiprocessing.managers", "Token")])
guarded.register(common.guard(more=[("multiprocessing.managers", "Token")]), "guarded")
class Manager(BaseManager):
    pass
Manager.register("jobs", lambda: jobs)
Manager(("127.0.0.1", int(sys.argv[1])), b"key", "guarded").get_server().serve_forever()
"""


PLAIN = """
import sys
from multiprocessing.managers import BaseManager
BaseManager(("127.0.0.1", int(sys.argv[1])), b"key").get_server().serve_forever()
"""


def run():
    """The test."""
    with tempfile.TemporaryDirectory() as folder:
        control(Path(folder, "plain"))
        for code, attempt in ((SERVER, try_connection), (MANAGER, try_manager)):
            port = common.free_port()
            with common.process("-c", code, str(port), log=Path(folder, "log")) as server:
                with watching.during([*common.LISTED, TOKEN], [folder]):
                    attempt(port)
                    common.nothing_ran()
                assert server.poll() is None
    try_names()
    common.nothing_ran()


def control(log):
    """A plain connection, and a plain manager, run the table."""
    from multiprocessing import Pipe, connection

    def receive(data):
        ours, theirs = Pipe()
        theirs.send_bytes(data)
        ours.recv()

    with common.table() as table:
        table.runs_all(receive)
    port = common.free_port()
    with common.table() as table, common.process("-c", PLAIN, str(port), log=log):
        for data in table.shapes.values():
            client = connected(port, lambda place, _, **key: connection.Client(place, **key))
            client.send_bytes(data)
        table.assert_all_ran(table.shapes)


def try_connection(port):
    """Each side loads what the other sends."""
    with connected(port) as client:
        assert not client.closed and client.readable
        talk(client)
    assert client.closed


def talk(client):
    """What is good comes back, and what is hostile is refused."""
    for number in range(common.GOOD):
        client.send(common.good(number))
        assert client.recv() == ("got", common.good(number))
    for number in range(common.HOSTILE):
        client.send_bytes(common.hostile(number))
        kind, said = client.recv()
        assert kind == ("raised" if number % 5 == 4 else "refused"), (number, kind)
        assert said in common.SAID[4] if number % 5 == 4 else common.SAID[number % 5] in said, said
    for data in TABLE.values():
        client.send_bytes(data)
        assert client.recv()[0] == "refused"


def try_manager(port):
    """Calls of a manager's object, and what a stranger sends in their place."""
    from multiprocessing.managers import BaseManager

    guarded.register(common.guard(more=[TOKEN]), "guarded")
    connected(port).close()

    class Manager(BaseManager):
        pass

    Manager.register("jobs")
    manager = Manager(("127.0.0.1", port), b"key", "guarded")
    manager.connect()
    proxy = manager.jobs()
    for number in range(common.GOOD):
        assert proxy.add(number, 1) == number + 1
    for number in range(common.HOSTILE):
        client = connected(port)
        client.send_bytes(common.hostile(number))
        kind, said = client.recv()
        words = "TypeError" if number % 5 == 4 else common.SAID[number % 5]
        assert kind == "#TRACEBACK" and words in said, (kind, said)
        client.close()
    for data in TABLE.values():
        client = connected(port)
        client.send_bytes(data)
        assert client.recv()[0] == "#TRACEBACK"
        client.close()
    assert proxy.add(1, 1) == 2


def try_names():
    """A manager that names as a method what Python would compile and run in its client."""
    from multiprocessing import connection

    for kind in ("get_methods", "create", "proxy"):
        with common.table() as table:
            name = f"x(): pass\n{poison.WORDS % str(table.folder / 'plain')}\ndef y"
            for serializer, make in (("pickle", connection.Client), ("guarded", guarded.Client)):
                listener = connection.Listener(("127.0.0.1", 0), authkey=b"key")
                thread = threading.Thread(target=answer, args=(listener, kind, name), daemon=True)
                thread.start()
                said = ""
                try:
                    ask(listener.address, serializer, kind)
                except Exception as error:
                    said = str(error)
                mark = table.folder / "plain"
                assert mark.exists() == (serializer == "pickle"), (kind, serializer, said)
                assert serializer == "pickle" or "names a method" in said, said
                mark.unlink(missing_ok=True)
                listener.close()


def answer(listener, kind, name):
    """The hostile manager."""
    with contextlib.suppress(OSError, EOFError):
        while True:
            words = (listener.accept(), listener.address, kind, name)
            threading.Thread(target=talk_to, args=words, daemon=True).start()


def talk_to(client, address, kind, name):
    """Its answers to one connection."""
    from multiprocessing.managers import Token

    answers = {
        "create": ("#RETURN", ("1", [name] if kind == "create" else ["add"])),
        "get_methods": ("#RETURN", [name]),
        "add": ("#PROXY", ([name], Token("jobs", address, "1"))),
    }
    with contextlib.suppress(OSError, EOFError):
        while True:
            client.send(answers.get(client.recv()[1], ("#RETURN", None)))


def ask(address, serializer, kind):
    """A client of it."""
    from multiprocessing.managers import AutoProxy, BaseManager, Token

    class Manager(BaseManager):
        pass

    Manager.register("jobs")
    manager = Manager(address, b"key", serializer)
    manager.connect()
    if kind == "get_methods":
        AutoProxy(Token("jobs", address, "1"), serializer, manager=manager, authkey=b"key")
    else:
        manager.jobs().add(1)


def connected(port, make=guarded.Client):
    """The client, once the server listens."""
    for _ in range(20 * common.PATIENCE):
        try:
            return make(("127.0.0.1", port), common.guard(), authkey=b"key")
        except ConnectionRefusedError:
            time.sleep(0.05)
    raise AssertionError("the server does not listen")

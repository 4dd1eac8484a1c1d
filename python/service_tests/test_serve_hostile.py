"""The daemon under requests that no client sends: each is answered with an error, no worker is
lost, and the verdicts after them are right.
"""

import contextlib
import gzip
import os
import random
import signal
import tempfile
import time
from pathlib import Path

import common
import served
from served import BAD, GOOD, instream, post, status_of

NEEDS = ("aiohttp",)
# Read by a worker when it starts: what stands for a fault in a library that ends it, or hangs.
HOOK = """
import os, sys, time
if b"storklocker.scanning.isolated" in open("/proc/self/cmdline", "rb").read():
    def end(event, arguments):
        if event == "open" and "/fd/" in str(arguments[0]):
            with os.fdopen(os.open(arguments[0], 0), "rb") as file:
                front = file.read(8)
            if front == b"kill it!":
                os._exit(9)
            if front == b"stall it":
                time.sleep(3600)
    busy = []
    def once(event, arguments):
        if not busy:
            busy.append(1)
            try:
                end(event, arguments)
            finally:
                busy.clear()
    sys.addaudithook(once)
"""
KILL, STALL = b"kill it!", b"stall it"
SECONDS, CONNECTIONS, BYTES = 5, 40, 1 << 20


def run():
    """The test."""
    with tempfile.TemporaryDirectory() as hooks:
        Path(hooks, "sitecustomize.py").write_text(HOOK)
        path = os.pathsep.join([hooks, os.environ.get("PYTHONPATH", "")])
        words = ("--workers", "2", "--max-seconds", str(SECONDS), "--max-bytes", str(BYTES))
        words += ("--max-connections", str(CONNECTIONS))
        with served.daemon(*words, PYTHONPATH=path) as daemon:
            workers = daemon.children()
            for attack in (malformed, chunked, pipelined, huge, slow, crowd, clamd):
                attack(daemon)
                is_well(daemon)
            assert sorted(workers) == sorted(daemon.children()), "a worker was lost"
            assert daemon.measure("storklocker_serve_worker_deaths_total") == 0
            deadly(daemon)
            is_well(daemon)
    stops()
    common.nothing_ran()


def is_well(daemon):
    """The verdicts are right, and nothing is left of what was sent."""
    is_whole(daemon)
    for body, wanted in ((GOOD, 200), (BAD, 422)):
        status = judged(daemon, body)
        assert status == wanted, status
    end = time.monotonic() + common.PATIENCE
    while daemon.measure("storklocker_serve_asking") > 1:
        assert time.monotonic() < end
        time.sleep(0.05)


def judged(daemon, body):
    """The status of a verdict, once there is one: a busy machine may have none in time."""
    for _ in range(20):
        status = daemon.checked(body)[0]
        if status not in (408, 503, 504):
            break
    return status


def is_whole(daemon):
    """Waits until each worker that died is replaced."""
    end = time.monotonic() + common.PATIENCE
    while daemon.measure("storklocker_serve_workers") < 2:
        assert time.monotonic() < end
        time.sleep(0.05)


def malformed(daemon):
    """What isn't HTTP, or is none that anybody sends."""
    chance = random.Random(3)
    whole = post("/check", GOOD)
    for data in (
        b"", b"\r\n\r\n", b"GET\r\n\r\n", b"POST /check HTTP/9.9\r\n\r\n", b"\x16\x03\x01\x02\x00",
        b"POST /check HTTP/1.1\r\nContent-Length: -1\r\n\r\n",
        b"POST /check HTTP/1.1\r\nContent-Length: 1\r\nContent-Length: 2\r\n\r\nN.",
        b"POST /check HTTP/1.1\r\nContent-Length: 0x2\r\n\r\nN.",
        b"POST /check HTTP/1.1\r\nHost: " + b"a" * 100_000 + b"\r\n\r\n",
        b"POST /check HTTP/1.1\r\n" + b"a: b\r\n" * 20_000 + b"\r\n",
        post("/check", b"", "Upgrade: websocket", "Connection: upgrade") + GOOD,
        *(whole[:end] for end in range(0, len(whole) - 1, 7)),
        *(bytes(chance.randrange(256) for _ in range(200)) for _ in range(50)),
    ):
        assert status_of(daemon.told(data, end=True)) in (0, 400, 404, 405, 422, 503), data[:99]


def chunked(daemon):
    """Chunks that lie, or end too early."""
    front = b"POST /check HTTP/1.1\r\nTransfer-Encoding: chunked\r\nConnection: close\r\n\r\n"
    length = b"%x\r\n" % len(GOOD)
    good = length + GOOD + b"\r\n"
    assert status_of(daemon.told(front + good + b"0\r\n\r\n")) == 200
    for body in (
        b"zz\r\n" + GOOD, b"-5\r\n" + GOOD, length + GOOD + b"X\r\n0\r\n\r\n", good,
        good + b"0\r\n",
        b"ffffffffffffffffff\r\n" + GOOD, length + GOOD[:-2], length, b"5;" + b"x" * 100_000,
        good + b"0\r\n" + b"a: b\r\n" * 20_000,
    ):
        told = daemon.told(front + body, end=True)
        assert status_of(told) in (0, 400, 413), (body[:50], told)
    both = front.replace(b"\r\nConn", b"\r\nContent-Length: 3\r\nConn")
    assert status_of(daemon.told(both + good + b"0\r\n\r\n", end=True)) in (0, 400)


def pipelined(daemon):
    """Requests that don't wait for answers get theirs, in order."""
    bodies = [GOOD, BAD] * 20
    data = b"".join(post("/check", body) for body in bodies)
    last = post("/check", GOOD, "Connection: close")
    told = daemon.told(data + last)
    statuses = [int(it[:3]) for it in told.split(b"HTTP/1.1 ")[1:]]
    assert statuses == [200, 422] * 20 + [200], statuses
    smuggled = post("/check", BAD + post("/check", GOOD), "Connection: close")
    told = daemon.told(smuggled)
    assert told.count(b"HTTP/1.1 ") == 1 and status_of(told) == 422


def huge(daemon):
    """More bytes than a body may have, however they come; packed ones aren't unpacked."""
    assert status_of(daemon.told(post("/check", b"", length=1 << 60), end=False)) == 413
    front = b"POST /scan HTTP/1.1\r\nTransfer-Encoding: chunked\r\n\r\n"
    block = b"10000\r\n" + bytes(1 << 16) + b"\r\n"
    assert status_of(daemon.told(front + block * (BYTES // (1 << 16) + 2))) == 413
    bomb = gzip.compress(bytes(1 << 24))
    for path in ("/check", "/json", "/imports"):
        told = daemon.told(post(path, bomb, "Content-Encoding: gzip", "Connection: close"))
        assert status_of(told) == 415, told[:200]


def slow(daemon):
    """Who sends slowly, or nothing, is sent away; others are answered meanwhile."""
    front = post("/check", b"", length=100)
    connections = [daemon.sent(it) for it in (front, front + b"cos\n", b"POST", b"") for _ in "123"]
    connections.append(daemon.sent(b"z", daemon.clamd))
    connections.append(daemon.sent(b"zINSTREAM\0\0\0\1\0abc", daemon.clamd))
    began = time.monotonic()
    assert judged(daemon, GOOD) == 200
    for number, connection in enumerate(connections):
        with connection:
            told = served.received(connection)
            assert status_of(told) == (408 if number < 6 else 0) and b"OK" not in told, told
    assert time.monotonic() - began < common.PATIENCE / 4


def crowd(daemon):
    """More connections than there may be are turned away, and the others stay."""
    with contextlib.ExitStack() as stack:
        idle = [stack.enter_context(daemon.sent(b"")) for _ in range(CONNECTIONS + 20)]
        time.sleep(0.5)
        told = [served.received(it) for it in idle[-10:]]
        assert {status_of(it) for it in told} == {503}, told
    deadline = time.monotonic() + common.PATIENCE
    while status_of(daemon.told(post("/check", GOOD, "Connection: close"))) != 200:
        assert time.monotonic() < deadline
        time.sleep(0.1)


def clamd(daemon):
    """Its protocol, as its documents have it, and what breaks it."""
    def told(data, end=False):
        return daemon.told(data, daemon.clamd, end)

    assert told(b"zPING\0") == b"PONG\0" and told(b"nPING\n") == told(b"PING\n") == b"PONG\n"
    assert told(b"nVERSION\n").startswith(b"Storklocker ")
    assert told(instream(GOOD)) == told(instream(b"text")) == b"stream: OK\0"
    assert told(instream(BAD, 3)) == b"stream: Storklocker.Refused FOUND\0"
    assert told(instream(BAD + bytes(BYTES // 2))) == b"stream: Storklocker.Refused FOUND\0"
    session = b"zIDSESSION\0" + instream(GOOD) + b"nPING\n" + instream(BAD) + b"zEND\0"
    wanted = b"1: stream: OK\0" + b"2: PONG\n" + b"3: stream: Storklocker.Refused FOUND\0"
    assert told(session) == wanted
    assert told(instream(bytes(BYTES + 1))).startswith(b"INSTREAM size limit exceeded. ERROR")
    for data in (
        b"", b"z", b"INSTREAM\n" + instream(GOOD)[10:], b"zSHUTDOWN\0", b"nSCAN /etc/passwd\n",
        b"zINSTREAM\0\xff\xff\xff\xff" + GOOD, instream(GOOD)[:-4], instream(GOOD)[:-9],
        b"zIDSESSION\0zIDSESSION\0", b"z" * 10_000, b"GET / HTTP/1.1\r\n\r\n", b"n\n", b"z\0",
    ):
        assert b"OK" not in told(data, True), data


def deadly(daemon):
    """A body that kills its worker, and one that never ends, are errors; others are answered."""
    for answered in (
        lambda: daemon.checked(KILL)[0] == 503,
        lambda: daemon.ask("/imports", KILL)[0] == 503,
        lambda: daemon.told(instream(KILL), daemon.clamd).endswith(b" ERROR\0"),
    ):
        is_whole(daemon)
        assert answered()
    is_well(daemon)
    deaths = daemon.measure("storklocker_serve_worker_deaths_total")
    assert deaths == 3, deaths
    assert daemon.checked(STALL)[0] == 504
    stalled = [daemon.sent(post("/check", STALL)) for _ in "12"]
    time.sleep(0.5)
    assert daemon.checked(GOOD)[0] in (200, 503, 504)  # (or no worker is free in time)
    for connection in stalled:
        with connection:
            assert status_of(connection.recv(1 << 16)) == 504
    is_whole(daemon)
    assert len(daemon.children()) == 2


def stops():
    """What runs at a signal is answered, and then it ends; nobody is left."""
    with served.daemon("--workers", "1") as daemon:
        workers = daemon.children()
        body = b"\x80\x04" + b"N0" * 500_000 + GOOD
        request = post("/check", body)
        connection = daemon.sent(request[:-5])
        time.sleep(0.3)
        daemon.process.send_signal(signal.SIGTERM)
        daemon.said("Stopping")
        connection.sendall(request[-5:])
        with connection:
            assert status_of(served.received(connection)) == 200
        assert daemon.process.wait(common.PATIENCE) == 0
        assert not any(map(served.command_of, workers)), "a worker is left"

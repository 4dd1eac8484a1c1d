"""What the tests of the adapters share: a guard, good values, hostile pickles, their own Redis."""

import contextlib
import datetime
import logging
import os
import pickle
import signal
import socket
import subprocess
import sys
import tempfile
import time
from pathlib import Path

import poison
import storklocker
from storklocker.metrics import CountingGuard

HERE = Path(__file__).resolve().parent
GOOD, HOSTILE = 1000, 50
PATIENCE = 300
"""Seconds that something takes at most on a busy machine; a wait ends when it is there."""
LISTED = [
    ("datetime", "datetime"),
    ("decimal", "Decimal"),
    ("jobs", "add"),
    ("jobs", "finish"),
]
MARKS = Path(os.environ["STORKLOCKER_MARKS"])


def guard(on_refusal=None, more=()):
    """The guard that every adapter is tried with, which counts."""
    return CountingGuard(storklocker.AllowList([*LISTED, *more]), on_refusal=on_refusal)


def good(number):
    """A value of listed names."""
    return {"id": number, "when": datetime.datetime(2026, 1, 2), "rows": list(range(20))}


class Command:
    """Pickles as a call of os.system that leaves a mark."""

    def __reduce__(self):
        return (os.system, (f"touch {MARKS / 'command'}",))


def hostile(number):
    """One of five hostile pickles, by the number: each would do harm, or break its reader."""
    pickled = pickle.dumps(good(number), 4)
    shapes = (
        pickle.dumps(Command(), 4),
        b"ctripwire\nTrip\n.",  # a module that leaves a mark when it is imported
        pickled[: len(pickled) // 2],
        pickled + pickle.dumps(Command(), 4),  # the second runs where one Unpickler goes on
        b"cdatetime\ndatetime\n)R.",  # listed, and its load raises
    )
    return shapes[number % len(shapes)]


SAID = ("ImportOffList", "ImportOffList", "Truncated", "pickle ends after", "load raised TypeError")
"""What is said of each of the five, in their order."""


def refused(times=1, row="MoreBytes"):
    """How often each reason comes where HOSTILE pickles are met so many times. A reader that stops
    at the end of the first pickle never meets the second of a row: `row` is None.
    """
    each = times * HOSTILE // len(SAID)
    return {"ImportOffList": 2 * each, "Truncated": each, **({row: each} if row else {})}


def raises(call, *kinds):
    """The error of a call, which is an UnpicklingError or one of these."""
    try:
        call()
    except (pickle.UnpicklingError, *kinds) as error:
        return str(error)
    raise AssertionError("what is hostile was loaded")


@contextlib.contextmanager
def table():
    """The poisoned pickles that leave their marks in a folder of their own, for a control."""
    with tempfile.TemporaryDirectory() as folder:
        yield Control(Path(folder))


class Control:
    """Pickles that a service without a guard would run, and the proof that it does."""

    def __init__(self, folder):
        self.folder = folder
        self.shapes = poison.shapes(folder)

    def runs_all(self, attempt):
        """Tries each pickle in a process of its own, and asserts that it left its mark. One that
        stalls its process is tried again.
        """
        for seconds in (PATIENCE // 20, PATIENCE // 4):
            for name in self.left(self.shapes):
                _attempted(lambda: attempt(self.shapes[name]), seconds)
        self.assert_all_ran(self.shapes, 0)

    def left(self, names):
        """Those of these that have left no mark yet."""
        return [name for name in names if not os.path.lexists(self.folder / name)]

    def assert_all_ran(self, names, seconds=PATIENCE):
        """Asserts that each of these leaves its mark in time, so that the table is one."""
        for _ in range(10 * seconds + 1):
            left = self.left(names)
            if not left:
                break
            time.sleep(0.1)
        assert len(names) >= 40 and not left, f"the control doesn't run {left}"


@contextlib.contextmanager
def log():
    """The lines at WARNING of the logger `storklocker`."""
    lines = []
    handler = logging.Handler(logging.WARNING)
    handler.emit = lambda record: lines.append(record.getMessage())
    logger = logging.getLogger("storklocker")
    logger.addHandler(handler)
    logger.propagate = False
    yield lines
    logger.removeHandler(handler)
    logger.propagate = True


def _attempted(call, seconds):
    """Calls in a child, which is killed if it takes longer."""
    child, end = os.fork(), time.monotonic() + seconds
    if child == 0:
        try:
            _silenced()
            call()
        finally:
            os._exit(0)
    while os.waitpid(child, os.WNOHANG)[0] == 0:
        if time.monotonic() > end:
            os.kill(child, signal.SIGKILL)
        time.sleep(0.005)


def _silenced():
    nothing = os.open(os.devnull, os.O_WRONLY)
    os.dup2(nothing, 1)
    os.dup2(nothing, 2)


def nothing_ran():
    """No hostile pickle left a mark, and nothing imported the module that it names."""
    assert not list(MARKS.iterdir()), f"a hostile pickle ran: {list(MARKS.iterdir())}"


def free_port():
    with socket.socket() as taken:
        taken.bind(("127.0.0.1", 0))
        return taken.getsockname()[1]


@contextlib.contextmanager
def redis_server(folder):
    """A Redis on a free loopback port, which ends with the test; gives the port."""
    port = free_port()
    words = ["--port", str(port), "--bind", "127.0.0.1", "--save", "", "--appendonly", "no"]
    server = subprocess.Popen(
        ["redis-server", *words, "--dir", str(folder)], stdout=subprocess.DEVNULL
    )
    try:
        _wait_for(port, server)
        yield port
    finally:
        server.terminate()
        server.wait(PATIENCE)


def _wait_for(port, server):
    for _ in range(20 * PATIENCE):
        if server.poll() is not None:
            raise RuntimeError("redis-server ended")
        with contextlib.suppress(OSError), socket.create_connection(("127.0.0.1", port), 1):
            return
        time.sleep(0.05)
    raise RuntimeError("redis-server does not answer")


@contextlib.contextmanager
def process(*words, log, is_killed=False, **environment):
    """Another process in this folder, ended with the test, or killed with all that it has begun.
    Its output goes to a file.
    """
    with open(log, "wb") as out:
        started = subprocess.Popen(
            [sys.executable, *words],
            cwd=HERE,
            env={**os.environ, **environment},
            stdout=out,
            stderr=subprocess.STDOUT,
            start_new_session=is_killed,
        )
    try:
        yield started
    finally:
        if is_killed:
            with contextlib.suppress(ProcessLookupError):
                os.killpg(started.pid, signal.SIGKILL)
        else:
            started.terminate()
        try:
            started.wait(20)
        except subprocess.TimeoutExpired:
            started.kill()
            started.wait()

"""`storklocker scan` of URLs on a cluster of two workers: 100,000 files of memory://, a worker
killed in the middle, a file that kills each of its workers, a second run that continues, and a
server of http://. A supervisor starts a worker again that ended, as that of a real cluster does.
"""

import asyncio
import contextlib
import functools
import http.server
import os
import pickle
import signal
import sqlite3
import subprocess
import sys
import tempfile
import threading
from pathlib import Path
from unittest import mock

import common
from storklocker.scanning import cluster, one_file, scan
from storklocker.scanning.files import Files
from storklocker.scanning.judging import Question

NEEDS = ("distributed", "fsspec", "aiohttp", "requests")
COUNT, FOLDERS = int(os.environ.get("STORKLOCKER_FILES", "100000")), 20
EACH = COUNT // 50
BASE = "memory://files"
DEADLY, SCAN = "deadly", cluster.Isolated.scan


def data_of(number):
    """The bytes of a file: one of EACH is hostile."""
    if number % EACH == 0:
        return common.hostile(number // EACH)
    return pickle.dumps(common.good(1), 4)


def path_of(number):
    return f"/files/{number % FOLDERS:03}/{number:06}.pickle"


def fill():
    """The files, in the memory of a process."""
    from fsspec.implementations.memory import MemoryFile, MemoryFileSystem

    its_info = MemoryFileSystem.info

    def info(self, path, **words):
        name = self._strip_protocol(path)
        if name not in self.store:
            return its_info(self, path, **words)
        file = self.store[name]
        made = getattr(file, "created", None)
        return {"name": name, "size": file.size, "type": "file", "created": made}

    # (its own calls look at every file for each)
    MemoryFileSystem.isfile = lambda self, path: self._strip_protocol(path) in self.store
    MemoryFileSystem.info = info
    system, good = MemoryFileSystem(), data_of(1)

    def put(path, data):
        path = system._strip_protocol(f"memory:/{path}")  # (fsspec 0.8 begins it without a slash)
        system.store.setdefault(path, MemoryFile(system, path, data))

    for number in range(COUNT):
        put(path_of(number), good if number % EACH else data_of(number))
    for name in ("a", DEADLY, "z"):
        put(f"/deadly/{name}", good)
    cluster.Isolated.scan = scan_or_die


def scan_or_die(isolated, file):
    """What stands for a fault in a library, which a file makes use of."""
    if file.path.endswith(DEADLY):
        os._exit(9)
    return SCAN(isolated, file)


@contextlib.contextmanager
def supervised(address):
    """Two workers, each of which is started again when it ends. (A nanny gives its worker only some
    seconds to come back, and then closes, which leaves a busy machine without workers.)
    """
    words = ["-m", "distributed.cli.dask_worker", address, "--no-nanny", "--nthreads", "1"]
    words = [sys.executable, "-W", "ignore", *words, "--no-dashboard", "--local-directory"]
    quiet = {**os.environ, "DASK_LOGGING__DISTRIBUTED": "error"}
    is_over, folder = threading.Event(), tempfile.TemporaryDirectory()

    def supervise():
        while not is_over.is_set():
            worker = subprocess.Popen([*words, folder.name], env=quiet)
            while worker.poll() is None and not is_over.wait(0.1):
                pass
            worker.kill()
            worker.wait()

    threads = [threading.Thread(target=supervise) for _ in range(2)]
    for thread in threads:
        thread.start()
    try:
        yield
    finally:
        is_over.set()
        for thread in threads:
            thread.join()
        folder.cleanup()


def run():
    """The test."""
    from distributed import Client, LocalCluster

    with LocalCluster(
        n_workers=0, host="127.0.0.1", dashboard_address=None
    ) as local, Client(local, set_as_default=False) as client, supervised(local.scheduler_address):
        client.register_worker_callbacks(fill)
        client.wait_for_workers(2, timeout=common.PATIENCE)
        fill()
        address = local.scheduler_address
        reports = scanned(BASE, cluster=address, kill=client)
        assert sum(it.status == "refused" for it in reports) == 40, reports[0]
        assert reports == list(expected())
        alone = scanned(f"{BASE}/000")
        assert alone == [it for it in reports if "/000/" in it.path]
        resumed(alone, address)
        deadly(address)
        over_http(address)
    without_workers()
    late_answers()
    common.nothing_ran()


def expected():
    """What one process says of each file: it reads a good one and the hostile ones."""
    numbers = sorted(range(COUNT), key=path_of)
    said = {}
    for number in (1, *range(0, COUNT, EACH)):
        [said[number]] = scanned(f"memory://{path_of(number)}")
    for number in numbers:
        report, path = said[1 if number % EACH else number], f"memory://{path_of(number)}"
        yield report._replace(path=path, file=path)


def scanned(*paths, cluster="", kill=None, resume="", most=None):
    """The reports on the files at some paths. Kills a worker when half of them are there."""
    question, means = Question(common.guard().allow), scan.Means(cluster=cluster, resume=resume)
    made = scan.scan(Files(paths, True), question, means)
    reports = []
    for report in made:
        reports.append(report._replace(verdict=None))  # (which JSON adds)
        if kill is not None and len(reports) == COUNT // 2:
            os.kill(min(kill.run(os.getpid).values()), signal.SIGKILL)
        if len(reports) == most:
            made.close()
            break
    return reports


def deadly(address):
    """A file that ends its worker is a finding; the others of its batch are scanned."""
    reports = scanned("memory://deadly", cluster=address)
    assert [it.status for it in reports] == ["accepted", "unreadable", "accepted"], reports
    assert reports[1].why == "the workers that read it ended", reports[1]


def without_workers():
    """A cluster that has no worker is given up after some time."""
    from distributed import LocalCluster

    soon = mock.patch.multiple(cluster, _PAUSE=0.1, _PAUSES=3)
    with soon, LocalCluster(n_workers=0, host="127.0.0.1", dashboard_address=None) as local:
        try:
            scanned("memory://deadly", cluster=local.scheduler_address)
        except OSError as error:
            assert "no worker for" in str(error), error
        else:
            raise AssertionError("what scanned the files?")


class Late:
    """A future that is done right after a wait for it has ended."""

    def __init__(self, status, outcome):
        self.status, self._outcome, self._waits = status, outcome, 0

    def done(self):
        return True

    def exception(self):
        return self._outcome

    def result(self, timeout):
        self._waits += 1
        if self._waits == 1 or isinstance(self._outcome, TimeoutError):
            raise asyncio.TimeoutError("timed out")
        if isinstance(self._outcome, Exception):
            raise self._outcome
        return self._outcome


def late_answers():
    """An answer, or an error, that comes between a wait and the look whether it is there."""
    client = mock.Mock(**{"nthreads.return_value": {"worker": 1}})
    asked = cluster._Cluster(client, Question())
    assert asked._result(Late("finished", ["answer"])) == ["answer"]
    for error in (ValueError("of the worker"), TimeoutError("of the worker")):
        try:
            asked._result(Late("error", error))
        except type(error) as raised:
            assert raised is error, raised
        else:
            raise AssertionError("no error is raised")


def resumed(alone, address):
    """A second run scans only what the first hasn't."""
    folder = f"{BASE}/000"
    with tempfile.TemporaryDirectory() as name:
        store = str(Path(name, "scan"))
        scanned(folder, cluster=address, resume=store, most=len(alone) // 2)
        assert kept(store) > len(alone) // 4
        assert scanned(folder, cluster=address, resume=store) == alone
        assert kept(store) == len(alone)
        one_file.scan_file, real = None, one_file.scan_file  # all are known
        assert scanned(folder, resume=store) == alone
        one_file.scan_file = real


def kept(store):
    """How many files a store has."""
    with contextlib.closing(sqlite3.connect(store)) as base:
        return base.execute("select count(*) from reports").fetchone()[0]


def over_http(address):
    """A folder that a server lists."""
    with tempfile.TemporaryDirectory() as name:
        folder = Path(name, "files", "deep")
        folder.mkdir(parents=True)
        for number in range(100):
            (folder.parent / f"{number}.pickle").write_bytes(common.hostile(number))
            (folder / f"{number}.pickle").write_bytes(pickle.dumps(common.good(number), 2))
        handler = functools.partial(Quiet, directory=name)
        with http.server.ThreadingHTTPServer(("127.0.0.1", 0), handler) as server:
            threading.Thread(target=server.serve_forever, daemon=True).start()
            url = f"http://127.0.0.1:{server.server_port}"
            here = {it.path[len(name) :]: it for it in scanned(f"{name}/files")}
            for cluster in ("", address):
                reports = scanned(f"{url}/files/", cluster=cluster)
                there = {it.path[len(url) :]: it for it in reports}
                assert there.keys() == here.keys(), (len(there), len(here))
                for path, report in there.items():
                    same = report._replace(path=here[path].path, file=here[path].file)
                    assert same == here[path], (same, here[path])
            server.shutdown()


class Quiet(http.server.SimpleHTTPRequestHandler):
    """A server that logs nothing."""

    def log_message(self, *words):
        pass

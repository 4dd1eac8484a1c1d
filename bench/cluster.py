#!/usr/bin/env python3
"""Files and bytes a second of `storklocker scan --cluster`, on one, two and four workers, as
multiples of one process without a cluster; and what a million objects at URLs cost of processors on
four workers, one of which is lost, with the reports of one process.
"""

import argparse
import os
import pathlib
import pickle
import signal
import sys
import tempfile
import time

import psutil
from distributed import Client, LocalCluster

sys.path.insert(0, str(pathlib.Path(__file__).resolve().parents[1] / "python"))

from storklocker.scanning.files import Files  # noqa: E402
from storklocker.scanning.judging import Question  # noqa: E402
from storklocker.scanning.scan import Means, scan  # noqa: E402

WORKERS = (1, 2, 4)


def seconds(folder, cluster=""):
    """How long a scan takes."""
    began = time.monotonic()
    for _ in scan(Files([folder]), Question(), Means(cluster=cluster)):
        pass
    return time.monotonic() - began


class Spent:
    """The seconds of processors that this process and its descendants have taken, also those that
    have ended since they were last looked at.
    """

    def __init__(self):
        self._times = {}
        self.look()

    def look(self):
        """The seconds so far."""
        here = psutil.Process()
        for it in [here, *here.children(recursive=True)]:
            try:
                self._times[it.pid] = sum(it.cpu_times()[:2])
            except psutil.NoSuchProcess:
                pass
        return sum(self._times.values())


def lost(folder, files):
    """What objects cost at URLs where a worker is killed in the middle, and at the end another run
    finds all reports.
    """
    url, store = f"file://{folder}", f"{folder}.kept"
    alone = list(scan(Files([url]), Question()))
    words = {"threads_per_worker": 1, "host": "127.0.0.1", "dashboard_address": None}
    with LocalCluster(n_workers=4, **words) as cluster, Client(cluster) as client:
        means, spent, found = Means(cluster=cluster.scheduler_address, resume=store), Spent(), []
        before = spent.look()
        for report in scan(Files([url]), Question(), means):
            found.append(report._replace(verdict=None))
            if len(found) % (files // 20) == 0:
                spent.look()
            if len(found) == files // 2:
                os.kill(min(client.run(os.getpid).values()), signal.SIGKILL)
        took = spent.look() - before
        began = spent.look()
        again = [it._replace(verdict=None) for it in scan(Files([url]), Question(), means)]
        resumed = spent.look() - began
    same = found == again == [it._replace(verdict=None) for it in alone]
    each = 1e6 / files / 60
    print(f"{files} objects, four workers, one killed: {'the same' if same else 'OTHER'} reports,")
    kept = f"{resumed * each:.1f} if all are kept"
    print(f"{took * each:.1f} minutes of a processor a million, {kept}")


def main():
    parser = argparse.ArgumentParser(description=__doc__)
    parser.add_argument("--files", type=int, default=10_000)
    parser.add_argument("--size", type=int, default=20_000, help="bytes of each")
    parser.add_argument("--lost", action="store_true", help="only lose a worker, at URLs")
    asked = parser.parse_args()
    data = pickle.dumps({"rows": [f"row {number}" for number in range(asked.size // 12)]}, 4)
    with tempfile.TemporaryDirectory() as top:
        folder = f"{top}/files"
        os.mkdir(folder)
        for number in range(asked.files):
            pathlib.Path(folder, f"{number}.pickle").write_bytes(data)
        if asked.lost:
            lost(folder, asked.files)
            return
        alone = seconds(folder)
        print("| Workers | Files a second | MB a second | Times one process |")
        print("|---|---|---|---|")
        show("none", asked.files, len(data), alone, alone)
        for workers in WORKERS:
            with LocalCluster(
                n_workers=workers, threads_per_worker=1, host="127.0.0.1", dashboard_address=None
            ) as cluster:
                took = seconds(folder, cluster.scheduler_address)
            show(workers, asked.files, len(data), took, alone)


def show(workers, files, size, took, alone):
    speed = f"{files / took:,.0f} | {files * size / took / 1e6:.1f} | {alone / took:.2f}"
    print(f"| {workers} | {speed} |", flush=True)


if __name__ == "__main__":
    main()

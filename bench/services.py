#!/usr/bin/env python3
"""Times Celery, Django's caches and Dask with bare pickles and behind the guard.

It needs Debian's python3 with the packages that python/services installs, and the built package.
"""
import argparse
import datetime
import importlib
import os
import pathlib
import pickle
import statistics
import sys
import tempfile
import time
from typing import Any, Dict, List, Tuple

HERE = pathlib.Path(__file__).resolve().parent
TESTS = HERE.parent / "python" / "service_tests"
os.environ.setdefault("STORKLOCKER_MARKS", tempfile.gettempdir())
sys.path[:0] = [str(TESTS), str(HERE.parent / "python"), str(HERE)]
os.environ["PYTHONPATH"] = os.pathsep.join(sys.path[:3])

import common  # type: ignore[import]  # noqa: E402
import storklocker  # type: ignore[import]  # noqa: E402
from storklocker import lists  # noqa: E402

CELERY_TARGET, DJANGO_TARGET, DASK_TARGET = 1.05, 1.5, 1.8
JOBS, PAIRS = 10, 3
"""The jobs of a batch, and the pairs of workers: each pair lies elsewhere in memory."""
BOUND = 1.5
"""How many times its target a figure may reach before it counts as a regression."""


def small() -> Dict[str, object]:
    """A job's payload of some 195 bytes."""
    return {"id": 7, "when": datetime.datetime(2026, 1, 2), "name": "report", "to": ["a", "b"]}


def large(count: int) -> List[Dict[str, object]]:
    """A value of this many rows, of 50 bytes and more each."""
    return [
        {"id": it, "name": f"row {it}", "price": it / 7, "tags": ["a", str(it)]}
        for it in range(count)
    ]


def celery(rounds: int) -> float:
    """Compares the CPU times of a bare and of a guarded worker, by payload. Jobs a second are those
    of a processor that does nothing else.
    """
    print("| Celery | µs a job, bare | guarded | Jobs a second | guarded | Times | Quartiles |")
    print("|---|---|---|---|---|---|---|")
    median, processors = 0.0, os.sched_getaffinity(0)
    os.sched_setaffinity(0, {max(processors)})  # both workers get the same speed
    with tempfile.TemporaryDirectory() as folder, common.redis_server(folder) as port:
        os.environ["REDIS_PORT"] = str(port)
        for name, payload in (("12 KB", large(220)), ("195 bytes", small())):
            times: List[Tuple[float, float]] = []
            for _ in range(PAIRS):
                with worker(folder, "bare"), worker(folder, "guarded"):
                    batches(payload, 3)  # warms up
                    times += batches(payload, rounds)
            bare, kept = (1e6 * statistics.median(it) for it in zip(*times))
            low, median, high = statistics.quantiles([kept / bare for bare, kept in times], n=4)
            paces = f"{bare:.0f} | {kept:.0f} | {1e6 / bare:.0f} | {1e6 / kept:.0f}"
            print(f"| {name} | {paces} | {median:.3f} | {low:.3f} to {high:.3f} |", flush=True)
    os.sched_setaffinity(0, processors)
    return median


def worker(folder: str, queue: str) -> Any:
    """A worker of one process, which takes the jobs of this queue."""
    words = ("-m", "celery", "--workdir", str(HERE), "-A", "celery_jobs", "worker", "-Q", queue)
    more = {"QUEUE": queue, "C_FORCE_ROOT": "1", "PYTHONHASHSEED": "0"}
    log = pathlib.Path(folder, queue)
    return common.process(*words, "-n", queue, "-P", "solo", "-l", "error", log=log, **more)


def batches(payload: object, rounds: int) -> List[Tuple[float, float]]:
    """The CPU time of a job in each round, bare and guarded. The batches of a round lie around the
    same moment, because the speed of a busy machine changes.
    """
    found = []
    for _ in range(rounds):
        took = [batch(payload, queue) for queue in ("bare", "guarded", "guarded", "bare")]
        found.append(((took[0] + took[3]) / 2, (took[1] + took[2]) / 2))
    return found


def batch(payload: object, queue: str) -> float:
    """The CPU time of a job in seconds. The worker has the whole batch before it begins."""
    import celery_jobs

    celery_jobs.begin.apply_async(queue=queue)
    for _ in range(JOBS):
        celery_jobs.work.apply_async((payload,), queue=queue)
    celery_jobs.finish.apply_async(queue=queue)
    celery_jobs.signals.rpush("queued", 1)
    return int(celery_jobs.signals.blpop("done", 60)[1]) / JOBS / 1e9


def django(rounds: int) -> float:
    """The CPU time of a get on three backends, bare and guarded."""
    with tempfile.TemporaryDirectory() as folder, common.redis_server(folder) as port:
        caches = configured(folder, port)
        values: Dict[str, object] = {"195-bytes": small(), "24-KB": large(440)}
        took: Dict[Tuple[str, str], List[Tuple[float, float]]] = {}
        for kind in ("memory", "files", "redis"):
            for size, value in values.items():
                for guard in ("bare", "guarded"):
                    caches[f"{kind}-{guard}"].set(size, value)
        for _ in range(rounds):
            for kind in ("memory", "files", "redis"):
                for size in values:
                    bare, kept = (caches[f"{kind}-{guard}"] for guard in ("bare", "guarded"))
                    took.setdefault((kind, size), []).append((got(bare, size), got(kept, size)))
    print("\n| Django | a get, bare, µs | guarded, µs | times |\n|---|---|---|---|")
    worst = 0.0
    for (kind, size), times in took.items():
        least = [1e6 * min(it) for it in zip(*times)]
        # a pair of neighbours, because the speed of a busy machine changes from one to the next
        ratio = statistics.median(kept / bare for bare, kept in times)
        name = f"{kind}, {size.replace('-', ' ')}"
        print(f"| {name} | {least[0]:.1f} | {least[1]:.1f} | {ratio:.2f} |")
        worst = max(worst, ratio) if size == "24-KB" else worst
    return worst


def got(cache: Any, key: str) -> float:
    """The CPU time of a get in seconds."""
    began = time.process_time()
    for _ in range(20):
        cache.get(key)
    return (time.process_time() - began) / 20


def configured(folder: str, port: int) -> Any:
    """The caches, each bare and guarded."""
    import django as framework  # type: ignore[import]
    from django.conf import settings  # type: ignore[import]

    back, remote = "django.core.cache.backends.", f"redis://127.0.0.1:{port}/"
    kept: Any = {"GUARD": storklocker.Guard(lists.DATETIME | lists.STANDARD_TYPES)}
    settings.configure(
        CACHES={
            "default": {"BACKEND": back + "locmem.LocMemCache"},
            "memory-bare": {"BACKEND": back + "locmem.LocMemCache", "LOCATION": "a"},
            "files-bare": {"BACKEND": back + "filebased.FileBasedCache", "LOCATION": folder + "/a"},
            "redis-bare": {"BACKEND": "django_redis.cache.RedisCache", "LOCATION": remote + "3"},
            **{
                f"{kind}-guarded": {
                    "BACKEND": f"storklocker.contrib.django.{name}",
                    "LOCATION": place,
                    "OPTIONS": kept,
                }
                for kind, name, place in (
                    ("memory", "LocMemCache", "b"),
                    ("files", "FileBasedCache", folder + "/b"),
                    ("redis", "RedisCache", remote + "4"),
                )
            },
        }
    )
    framework.setup()
    from django.core.cache import caches  # type: ignore[import]

    return caches


def entry(number: int) -> Tuple[int, bytes]:
    """A key and a pickle of some 900 bytes."""
    return number, pickle.dumps(large(15), 4)


def dask(count: int) -> float:
    """The speedup of two processes over one when they check a bag."""
    from storklocker.contrib.dask import check_bag  # type: ignore[import]

    # No import statement: mypy would follow it, and Dask's sources are of a later Python than 3.8.
    bags, distributed = map(importlib.import_module, ("dask.bag", "distributed"))

    guard = storklocker.Guard(storklocker.AllowList(()))
    paces: Dict[int, float] = {}
    for workers in (1, 2, 4):
        words = {"n_workers": workers, "threads_per_worker": 1, "dashboard_address": None}
        with distributed.LocalCluster(
            host="127.0.0.1", **words
        ) as cluster, distributed.Client(cluster):
            bag = bags.from_sequence(range(count), npartitions=40).map(entry).persist()
            bag.count().compute()
            times = []
            for _ in range(3):
                began = time.perf_counter()
                rows = check_bag(bag, guard)
                assert rows.filter(lambda row: row.accepted).count().compute() == count
                times.append(time.perf_counter() - began)
            paces[workers] = count / min(times)
    print("\n| Dask, processes | pickles a second |\n|---|---|")
    for workers, pace in paces.items():
        print(f"| {workers} | {pace:,.0f} |")
    return paces[2] / paces[1]


def main() -> int:
    words = argparse.ArgumentParser(description=__doc__.splitlines()[0])
    words.add_argument("--rounds", type=int, default=60, help="rounds of Celery's workers (60)")
    words.add_argument("--count", type=int, default=100_000, help="pickles in the bag (100,000)")
    words.add_argument("--only", choices=("celery", "django", "dask"), help="only this service")
    asked = words.parse_args()
    kept = []
    if asked.only in (None, "celery"):
        kept.append(told("Celery at 195 bytes", celery(asked.rounds), CELERY_TARGET))
    if asked.only in (None, "django"):
        kept.append(told("a get of 24 KB", django(60), DJANGO_TARGET))
    if asked.only in (None, "dask"):
        ratio = dask(asked.count)
        print(f"\ntwo processes: {ratio:.2f} times as fast as one; the target is {DASK_TARGET}")
    return 0 if all(kept) else 1


def told(what: str, ratio: float, target: float) -> bool:
    """Prints a figure beside its target, and returns whether it keeps the bound."""
    print(f"\n{what}: {ratio:.2f} times the bare one; the target is {target:.2f}")
    return ratio <= BOUND * target


if __name__ == "__main__":
    sys.exit(main())

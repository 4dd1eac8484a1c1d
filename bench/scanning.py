#!/usr/bin/env python3
"""Times `storklocker scan` over folders of pickles, and `pickletools.genops`.

It prints files and bytes per second with 1, 2 and 4 jobs, compares the CPU time with that of
`genops` in as many processes, and gives the peak memory of the largest process. Last, it compares a
scan of many small files with `pickle.loads` of what is in them. The status is 1 if a bound is
exceeded.
"""
import argparse
import concurrent.futures
import datetime
import gc
import os
import pathlib
import pickle
import pickletools
import resource
import statistics
import subprocess
import sys
import tempfile
import time
from typing import Dict, List, Tuple

PYTHON = pathlib.Path(__file__).resolve().parent.parent / "python"
TARGET, BOUND = 20, 5
"""Speedup over `pickletools.genops`; below the bound it is a regression."""
SMALL, RECORDS, TURNS = 3_000, 118, 7
"""Files of 4 kB, and how often each reader has its turn."""
AIM, MOST = 2.5, 4.0
"""The most times of a load that a scan of these files should and may take."""
LIST = 'version = 1\n[imports]\ndatetime = ["datetime"]\n'


def rows(count: int) -> List[Dict[str, object]]:
    """A value of this many records of some 70 bytes."""
    noon = datetime.datetime(2026, 1, 2)
    return [{"id": it, "name": f"row {it}", "when": noon, "price": it / 7} for it in range(count)]


def fill(folder: pathlib.Path, count: int, data: bytes) -> int:
    """Writes this many files with these bytes into a folder, and returns their total size."""
    folder.mkdir()
    for number in range(count):
        (folder / f"{number}.pickle").write_bytes(data)
    return count * len(data)


def scanned(folder: pathlib.Path, allow: pathlib.Path, jobs: int) -> Tuple[float, float, int]:
    """Seconds of a scan, its CPU time, and the peak memory of its largest process in bytes."""
    words = [sys.executable, "-m", "storklocker.scanning.command", "scan", str(folder)]
    words += ["--allow", str(allow), "--jobs", str(jobs)]
    before = resource.getrusage(resource.RUSAGE_CHILDREN)
    began = time.perf_counter()
    environment = {**os.environ, "PYTHONPATH": str(PYTHON)}
    subprocess.run(words, env=environment, stdout=subprocess.DEVNULL, check=True)
    took = time.perf_counter() - began
    after = resource.getrusage(resource.RUSAGE_CHILDREN)
    used = after.ru_utime + after.ru_stime - before.ru_utime - before.ru_stime
    return took, used, max(before.ru_maxrss, after.ru_maxrss) * 1024


def listed(path: pathlib.Path) -> float:
    """The CPU time of iterating over the instructions of a file."""
    began = time.process_time()
    for _ in pickletools.genops(path.read_bytes()):
        pass
    return time.process_time() - began


def beside(folder: pathlib.Path, jobs: int, most: int) -> float:
    """CPU seconds per file of `pickletools.genops` in this many processes, over at most this many
    files.
    """
    files = sorted(folder.iterdir())[:most]
    with concurrent.futures.ProcessPoolExecutor(jobs) as pool:
        return sum(pool.map(listed, files)) / len(files)


def loaded(folder: pathlib.Path) -> float:
    """The CPU time of loading the bytes of all files, without garbage collector."""
    held = [path.read_bytes() for path in folder.iterdir()]
    gc.disable()
    began = time.process_time()
    for data in held:
        pickle.loads(data)
    took = time.process_time() - began
    gc.enable()
    return took


def compare_with_loads(folder: pathlib.Path, allow: pathlib.Path) -> float:
    """How many times as long as loading them a scan of small files takes, which it prints."""
    size = fill(folder, SMALL, pickle.dumps(rows(RECORDS), 4)) // SMALL
    turns = [(scanned(folder, allow, 1)[1], loaded(folder)) for _ in range(TURNS)]
    times = statistics.median(scan / loads for scan, loads in turns)
    scan, loads = (min(took) for took in zip(*turns))
    print(f"\n{SMALL:,} files of {size:,} bytes: {scan:.3f} s, `pickle.loads` {loads:.3f} s,")
    print(f"{times:.1f} times as long; the target is {AIM}, the bound {MOST}.")
    return times


def main() -> int:
    words = argparse.ArgumentParser(description=__doc__.splitlines()[0])
    words.add_argument("--small", type=int, default=10_000, help="number of files of 1 KB (10,000)")
    words.add_argument("--large", type=int, default=100, help="number of files of 10 MB (100)")
    asked = words.parse_args()
    print("| Files | Jobs | Files a second | MB a second | Times `genops` | Peak MB |")
    print("|---|---|---|---|---|---|")
    least = 9e9
    with tempfile.TemporaryDirectory() as name:
        top = pathlib.Path(name)
        allow = top / "list.toml"
        allow.write_text(LIST)
        for kind, count, records, most in (
            ("1 KB", asked.small, 15, 200),
            ("10 MB", asked.large, 190_000, 1),
        ):
            folder = top / kind.replace(" ", "")
            size = fill(folder, count, pickle.dumps(rows(records), 4))
            for jobs in (1, 2, 4):
                # before and after, because the speed of a busy machine changes
                slow = beside(folder, jobs, most * jobs)
                took, used, peak = scanned(folder, allow, jobs)
                slow = (slow + beside(folder, jobs, most * jobs)) / 2
                ratio = slow * count / used
                least = min(least, ratio) if kind == "10 MB" else least
                print(
                    f"| {count} of {kind} | {jobs} | {count / took:,.0f} | {size / took / 1e6:.0f} "
                    f"| {ratio:.1f} | {peak / 1e6:.0f} |",
                    flush=True,
                )
        times = compare_with_loads(top / "small", allow)
    print(f"\nThe target is {TARGET} times `genops`, the bound {BOUND} times, on files of 10 MB.")
    return 0 if least >= BOUND and times <= MOST else 1


if __name__ == "__main__":
    sys.exit(main())

#!/usr/bin/env python3
"""Compares the Python package with pickle.loads, in microseconds of CPU time per call.

Each table has times as measured. The targets in microseconds and milliseconds are for a machine on
which `pickle.loads` takes REFERENCE microseconds for the pickle of 198 bytes, so the figures at the
end are scaled to such a machine: a figure is the median, over the rounds, of its ratio to the
`pickle.loads` beside it. The status is 1 if a figure misses its target by more than BOUND.
"""
import argparse
import collections
import datetime
import functools
import itertools
import math
import os
import pathlib
import pickle
import subprocess
import sys
import tempfile
import threading
import time
from types import ModuleType
from typing import Callable, List, NamedTuple, Sequence, Tuple

import program

sys.dont_write_bytecode = True
PYTHON = program.ROOT / "python"
sys.path.insert(0, str(PYTHON))

PAIRS = [("collections", "OrderedDict"), ("datetime", "datetime"), ("decimal", "Decimal")]
REFERENCE = 4.0
"""The microseconds that `pickle.loads` takes for 198 bytes on the machine of the targets."""
BOUND = 1.5
"""How many times worse than its target a figure may be before it counts as a regression."""
REFUSED = b"\x80\x04\x8c\x05posix\x94\x8c\x06system\x94\x93\x94."
# Prints the CPU times of an import of the package, and of a load of the bytes in hexadecimal
# digits, in seconds.
IMPORTS = """
import pickle, sys, time
began = time.process_time()
import storklocker
took, data, bare = time.process_time() - began, bytes.fromhex(sys.argv[1]), []
for _ in range(5):
    began = time.process_time()
    for _ in range(400):
        pickle.loads(data)
    bare.append((time.process_time() - began) / 400)
print(took, min(bare))
"""


class Figure(NamedTuple):
    """A figure and its target, which is the most that it may be, or the least."""

    name: str
    value: float
    target: float
    is_least: bool = False

    def missed(self) -> float:
        """How many times worse than the target; at most 1 if the target is met."""
        return self.target / self.value if self.is_least else self.value / self.target

    def line(self) -> str:
        missed = self.missed()
        fault = ", TOO SLOW" if missed > BOUND else ", missed" if missed > 1 else ""
        bound = "at least " if self.is_least else ""
        return f"{self.name}: {self.value:.2f} (target: {bound}{self.target}){fault}"


def arguments() -> argparse.Namespace:
    parser = argparse.ArgumentParser(description=__doc__.splitlines()[0])
    parser.add_argument(
        "--rounds", type=int, default=15, help="number of rounds; the best counts; %(default)s"
    )
    parser.add_argument("--calls", type=int, default=2000, help="calls per round; %(default)s")
    parser.add_argument("--archive", help="use this libpkguard.a instead of building one")
    parser.add_argument(
        "--process", action="store_true", help="also time a process of the program for each pickle"
    )
    return parser.parse_args()


def job(count: int) -> bytes:
    """A small pickle, like a queue's."""
    value = {
        "id": 17,
        "tags": ["one", "two", "three"],
        "when": datetime.datetime(2026, 1, 2, 3, 4, 5),
        "cart": collections.OrderedDict((f"sku{k}", k) for k in range(count)),
    }
    return pickle.dumps(value, 4)


def records(count: int) -> bytes:
    """A larger one."""
    return pickle.dumps([{"id": k, "name": f"user {k}", "score": k * 1.5} for k in range(count)], 4)


def best(call: Callable[[], object], rounds: int, calls: int) -> float:
    """The least CPU time of a call, in microseconds."""
    least = math.inf
    for _ in range(rounds):
        started = time.process_time()
        for _ in range(calls):
            call()
        used = (time.process_time() - started) / calls
        least = min(least, used)
    return least * 1e6


def in_turns(calls: Sequence[Callable[[], object]], rounds: int, count: int) -> List[List[float]]:
    """The times of each call by round; the calls take turns."""
    return list(map(list, zip(*([best(call, 1, count) for call in calls] for _ in range(rounds)))))


def process(data: bytes, rounds: int) -> float:
    """The least time of a process that checks the pickle, from start to end, in microseconds."""
    with tempfile.TemporaryDirectory() as folder:
        listed, file = pathlib.Path(folder, "list.toml"), pathlib.Path(folder, "job.pickle")
        names = "".join(f'{module} = ["{name}"]\n' for module, name in PAIRS)
        listed.write_text(f"version = 1\n[imports]\n{names}")
        file.write_bytes(data)
        least = math.inf
        for _ in range(rounds * 10):
            started = time.perf_counter()
            subprocess.run(program.command(listed, file), stdout=subprocess.DEVNULL, check=True)
            used = time.perf_counter() - started
            least = min(least, used)
    return least * 1e6


def native(asked: argparse.Namespace) -> Figure:
    """Prints the time of a check in C, without Python."""
    archive = asked.archive or program.ROOT / "crates" / "pkguard" / "out" / "libpkguard.a"
    sources = [program.ROOT / "bench" / "native.c", PYTHON / "storklocker.c", PYTHON / "heap.c"]
    flags = ["-std=c11", "-O2", "-Wall", "-Wextra", "-Werror", f"-I{PYTHON / 'storklocker'}"]
    data, took, bare = job(6), [], []
    with tempfile.TemporaryDirectory() as folder:
        made = pathlib.Path(folder, "native")
        compiler = os.environ.get("CC", "cc")
        subprocess.run([compiler, *flags, "-o", made, *sources, archive], check=True)
        for _ in range(asked.rounds):
            bare.append(best(lambda: pickle.loads(data), 1, asked.calls))
            ran = subprocess.run([made], input=data, stdout=subprocess.PIPE, check=True)
            took.append(float(ran.stdout))
    print(f"\na check of {len(data)} bytes from C: {min(took):.2f} microseconds")
    scaled = REFERENCE * program.ratio(took, bare)
    return Figure("check of 198 bytes from C, in microseconds", scaled, 1.5)


def many(count: int) -> List[Tuple[str, str]]:
    """The pairs, among others."""
    return PAIRS + [(f"package{k % 97}.module", f"Class{k}") for k in range(count - len(PAIRS))]


HEAD = """\
| Pickle | `pickle.loads` | `check` | `guard.loads` | beside `pickle.loads` \
| `storklocker.loads` | no limit on costs | and any BUILD | beside |
|---|---|---|---|---|---|---|---|---|"""


def pickles(storklocker: ModuleType, asked: argparse.Namespace) -> List[Figure]:
    """Prints a row for each size."""
    few = storklocker.AllowList(PAIRS)
    free = storklocker.Limits(levels=None, weight=None, work=None)
    guard, ruled = storklocker.Guard(few), storklocker.Guard(few, limits=free)
    other = storklocker.Guard(few, limits=free, build="any")
    checks, loads, others = [], [], []
    print(HEAD)
    sizes = [
        (b"N.", asked.calls),
        (job(6), asked.calls),
        (records(350), asked.calls // 50),
        (records(10_000), 3),
    ]
    for data, count in sizes:
        calls = [
            lambda: pickle.loads(data),
            lambda: storklocker.check(data, few),
            lambda: guard.loads(data),
            lambda: storklocker.loads(data, few),
            lambda: ruled.loads(data),
            lambda: other.loads(data),
        ]
        times = in_turns(calls, asked.rounds, max(1, count))
        checks.append(program.ratio(times[1], times[0]))
        loads.append(program.ratio(times[2], times[0]))
        others.append(program.ratio(times[5], times[0]))
        bare, check, guarded, loaded, unlimited, unruled = (min(it) for it in times)
        print(
            f"| {len(data):,} bytes | {bare:,.2f} | {check:,.2f} | {guarded:,.2f} "
            f"| {loads[-1]:.2f} | {loaded:,.2f} "
            f"| {unlimited:,.2f} | {unruled:,.2f} | {others[-1]:.2f} |"
        )
        if asked.process:
            print(f"| the same, a process | | {process(data, asked.rounds):,.0f} |" + " |" * 6)
    return [
        Figure("check of 198 bytes, in microseconds", REFERENCE * checks[1], 2.5),
        Figure("guarded load of 198 bytes, times bare", loads[1], 1.75),
        Figure("guarded load of 340 kB, times bare", loads[3], 1.4),
        Figure("guarded load of 198 bytes without both, times bare", others[1], 1.6),
        Figure("guarded load of 340 kB without both, times bare", others[3], 1.4),
    ]


def lists(storklocker: ModuleType, asked: argparse.Namespace) -> Figure:
    """Times a yes and a no under lists of many lengths. The figure is the greatest."""
    print(
        "\n| Pairs | `pickle.loads` | `check`, accepted | `check`, refused "
        "| refused by `guard.loads` |\n|---|---|---|---|---|"
    )
    data, found = job(6), []
    for count in (len(PAIRS), 1000, 100_000, 1_000_000):
        listed = storklocker.AllowList(many(count))
        guard = storklocker.Guard(listed)

        def refused() -> None:
            try:
                guard.loads(REFUSED)
            except storklocker.Refused:
                return

        calls = [
            lambda: pickle.loads(data),
            lambda: storklocker.check(data, listed),
            lambda: storklocker.check(REFUSED, listed),
            refused,
        ]
        times = in_turns(calls, asked.rounds, 20 if count > 1000 else asked.calls)
        found.append(program.ratio(times[-1], times[0]))
        print(f"| {count:,} | " + " | ".join(f"{min(it):,.2f}" for it in times) + " |")
    return Figure("refusal, in microseconds", REFERENCE * max(found), 3)


def reloading(storklocker: ModuleType, asked: argparse.Namespace) -> Figure:
    """Times a load by a guard that looks at its list file from time to time."""
    few = storklocker.AllowList(PAIRS)
    with tempfile.TemporaryDirectory() as folder:
        path = pathlib.Path(folder, "list.toml")
        few.to_file(path)
        guards = storklocker.Guard(few), storklocker.Guard.from_file(path, reload=30)
        data = job(6)
        loads = [pickle.loads, *(guard.loads for guard in guards)]
        calls = [functools.partial(load, data) for load in loads]
        bare, plain, again = in_turns(calls, asked.rounds, asked.calls)
    print(f"\nwith a list that is reloaded: {min(again) - min(plain):.2f} microseconds more")
    more = [late - soon for late, soon in zip(again, plain)]
    return Figure("reloading, in microseconds", REFERENCE * program.ratio(more, bare), 3)


def processors(count: int) -> List[Tuple[int, ...]]:
    """Sets of this many processors. Two may be halves of one core, which only a trial shows."""
    found = sorted(os.sched_getaffinity(0))
    return list(itertools.combinations(found, count))[:6]


def threads(storklocker: ModuleType, asked: argparse.Namespace) -> List[Figure]:
    """Times checks of a megabyte by several threads, each on a processor of its own, in checks per
    second on the best processors. There is no figure on a machine with one processor.
    """
    listed, data = storklocker.AllowList([]), records(29_000)
    print(
        f"\n| Threads that check {len(data):,} bytes | checks a second | beside one |"
        "\n|---|---|---|"
    )
    most = {1: 0.0, 2: 0.0, 4: 0.0}

    def work(processor: int) -> None:
        os.sched_setaffinity(0, {processor})
        for _ in range(10):
            storklocker.check(data, listed)

    # They take turns, because the speed of a shared machine changes within seconds.
    for _ in range(max(3, asked.rounds // 3)):
        for count, rate in most.items():
            for chosen in processors(count):
                workers = [threading.Thread(target=work, args=(one,)) for one in chosen]
                started = time.perf_counter()
                for worker in workers:
                    worker.start()
                for worker in workers:
                    worker.join()
                rate = max(rate, 10 * count / (time.perf_counter() - started))
            most[count] = rate
    rates = {count: rate for count, rate in most.items() if rate > 0}
    for count, rate in rates.items():
        print(f"| {count} | {rate:,.0f} | {rate / rates[1]:.2f} |")
    name = "two threads, times the checks of one"
    return [Figure(name, rates[2] / rates[1], 1.7, is_least=True)] if 2 in rates else []


def imported(asked: argparse.Namespace) -> Figure:
    """Prints the import time of the package beyond pickle's."""
    took: List[float] = []
    bare: List[float] = []
    with tempfile.TemporaryDirectory() as cache:
        named = {**os.environ, "PYTHONPATH": str(PYTHON), "PYTHONPYCACHEPREFIX": cache}
        named.pop("PYTHONDONTWRITEBYTECODE", None)
        command = [sys.executable, "-c", IMPORTS, job(6).hex()]
        for _ in range(asked.rounds + 1):  # the first one compiles
            printed = subprocess.run(command, stdout=subprocess.PIPE, check=True, env=named).stdout
            for times, one in zip((took, bare), printed.split()):
                times.append(float(one))
    print(f"\nimport: {1000 * min(took):.1f} ms beyond `pickle`")
    scaled = REFERENCE * program.ratio(took[1:], bare[1:]) / 1000
    return Figure("import, in milliseconds", scaled, 3)


def main() -> int:
    asked = arguments()
    words = ["--archive", asked.archive] if asked.archive else []
    subprocess.run([PYTHON / "make", *words], stdout=subprocess.DEVNULL, check=True)
    if asked.process:
        program.build()
    import storklocker  # type: ignore[import]

    figures = [
        *pickles(storklocker, asked),
        native(asked),
        lists(storklocker, asked),
        reloading(storklocker, asked),
        *threads(storklocker, asked),
        imported(asked),
    ]
    print()
    for figure in figures:
        print(figure.line())
    return int(any(figure.missed() > BOUND for figure in figures))


if __name__ == "__main__":
    sys.exit(main())

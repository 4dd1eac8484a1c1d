#!/usr/bin/env python3
"""Disturbs `optimize` while it replaces OUT: nothing is torn or lost.

Runs write one OUT in parallel while it is read, are interrupted, find the file system full, and
find their names taken. It prints a line per test, and finally how many passed.
"""
import os
import pathlib
import random
import resource
import shutil
import signal
import subprocess
import sys
import time
from typing import Callable, List, Set

from disturbing import BENCH, NEW, OLD, SECONDS, Untried
from disturbing import ending, expect, expect_done, expect_form, expect_names, expect_unmade
from disturbing import large, lay, names, run, run_all, start, test, value_of

MOST_NAMES = 100
INTERRUPTS = 60
MOST_INTERRUPTS = 2000


# ---- runs side by side


def read_beside(folder: pathlib.Path, files: List[pathlib.Path], out: pathlib.Path) -> Set[bytes]:
    """Starts a run for each file, and returns everything that OUT held meanwhile."""
    runs = [start(file, out) for file in files]
    seen = set()
    while any(ran.poll() is None for ran in runs):
        seen.add(out.read_bytes())
    for ran in runs:
        expect(ending(ran) == (0, ""), f"status {ran.returncode}")
    return seen | {out.read_bytes()}


@test
def two_runs_and_a_reader(folder: pathlib.Path) -> None:
    files = [lay(folder / word, large(word)) for word in ("left", "right")]
    values = [value_of(large(word)) for word in ("left", "right")] + [value_of(OLD)]
    out = folder / "out"
    for number in range(40):
        lay(out, OLD)
        chosen = files if number % 4 else [files[0], files[0], files[1], files[1]]
        for content in read_beside(folder, chosen, out):
            expect(value_of(content) in values, f"round {number}: {len(content)} bytes are torn")
        expect(value_of(out.read_bytes()) in values[:2], "OUT is not a new form")
    expect_names(folder, "left", "right", "out")


@test
def runs_beside_one_that_replaces_its_input(folder: pathlib.Path) -> None:
    for number in range(20):
        out, other = lay(folder / "out", large("left")), lay(folder / "other", large("right"))
        values = [value_of(large(word)) for word in ("left", "right")]
        for content in read_beside(folder, [out, other], out):
            expect(value_of(content) in values, f"round {number}: {len(content)} bytes are torn")
    expect_names(folder, "other", "out")


# ---- interrupts


def interrupt(folder: pathlib.Path, file: pathlib.Path, out: pathlib.Path, number: int) -> None:
    """Kills a run: at some moment, or as soon as there is a new file."""
    before = names(folder)
    ran = start(file, out)
    if number % 2:
        while ran.poll() is None and names(folder) == before:
            pass
    else:
        time.sleep(random.uniform(0, 0.03))
    ran.send_signal((signal.SIGINT, signal.SIGTERM, signal.SIGKILL)[number % 3])
    ending(ran)


def interrupted(folder: pathlib.Path, is_input: bool) -> int:
    """Interrupts runs that find what earlier ones left. Returns how many left something: there are
    more runs where none did yet, as on a busy machine.
    """
    source, left = large("left"), 0
    value = value_of(source)
    file = folder / ("out" if is_input else "file")
    for number in range(MOST_INTERRUPTS):
        lay(file, source)
        out = file if is_input else lay(folder / "out", OLD)
        interrupt(folder, file, out, number)
        content = out.read_bytes()
        expect(content in (OLD, source) or value_of(content) == value, f"{number}: torn or lost")
        expect(not is_input or value_of(content) == value, f"{number}: the input is lost")
        left = len(names(folder)) - len({file.name, "out"})
        if left and number >= INTERRUPTS:
            break
    return left


@test
def interrupts(folder: pathlib.Path) -> None:
    left = interrupted(folder, False)
    expect(left > 0, "no interrupt came while the new file was written")
    expect_done(folder / "file", folder / "out")


@test
def interrupts_where_the_input_is_replaced(folder: pathlib.Path) -> None:
    left = interrupted(folder, True)
    expect(left > 0, "no interrupt came while the new file was written")
    expect_done(folder / "out", folder / "out")


# ---- no room


def limit_size(size: int, is_ignored: bool) -> Callable[[], None]:
    def limit() -> None:
        signal.signal(signal.SIGXFSZ, signal.SIG_IGN if is_ignored else signal.SIG_DFL)
        resource.setrlimit(resource.RLIMIT_FSIZE, (size, size))

    return limit


@test
def a_limit_on_the_size_of_files(folder: pathlib.Path) -> None:
    file = lay(folder / "file", large("left"))
    for out, before in ((folder / "out", OLD), (file, large("left"))):
        for size in (0, 1, 4096, 500_000):
            lay(out, before)
            how = {"preexec_fn": limit_size(size, True), "restore_signals": False}
            expect_unmade(file, out, **how)
            expect(out.read_bytes() == before, f"{size}: OUT is not as it was")
    expect_names(folder, "file", "out")
    status, _ = run(file, file, preexec_fn=limit_size(4096, False), restore_signals=False)
    expect(status == -signal.SIGXFSZ, f"status {status} under the limit's own signal")
    expect(file.read_bytes() == large("left"), "FILE is not as it was")


# Optimizes into a file system without room for the result, and looks at what is left.
UNMOUNTED = 77
FULL = f"""
mount -t tmpfs -o size=128k none "$1" || exit {UNMOUNTED}
cp "$3" "$1/out" || exit 1
for times in 1 2 3; do
    "$4" optimize "$2" "$1/out" && exit 2
    cmp "$3" "$1/out" && [ "$(ls "$1")" = out ] || exit 3
done
"""


@test
def a_full_file_system(folder: pathlib.Path) -> None:
    if os.geteuid() != 0 or shutil.which("unshare") is None:
        raise Untried("needs root and unshare")
    (folder / "mount").mkdir()
    file, old = lay(folder / "file", large("left")), lay(folder / "old", OLD)
    words = ["unshare", "-m", "sh", "-c", FULL, "sh", str(folder / "mount"), str(file), str(old)]
    ran = subprocess.run([*words, str(BENCH.program)], stderr=subprocess.PIPE, timeout=SECONDS)
    said = ran.stderr.decode()
    if ran.returncode == UNMOUNTED or said.startswith("unshare:"):
        raise Untried("needs to mount a file system")
    told = f"cannot write {folder / 'mount' / 'out'}\n"
    expect((ran.returncode, said) == (0, told * 3), f"status {ran.returncode}: {said}")


# ---- names that are taken


@test
def names_that_are_taken(folder: pathlib.Path) -> None:
    file, out = lay(folder / "file", NEW), folder / "out"
    victim = lay(folder / "victim", OLD)
    lay(folder / "out.partial", b"mine")
    (folder / "out.1.partial").symlink_to(victim)
    (folder / "out.2.partial").mkdir()
    os.mkfifo(str(folder / "out.3.partial"))
    for _ in range(2):
        lay(out, OLD)
        expect_done(file, out)
        expect_form(out.read_bytes(), NEW)
    expect((folder / "out.partial").read_bytes() == b"mine", "a file of that name is changed")
    expect(victim.read_bytes() == OLD, "a file behind a link of that name is changed")
    taken = ["out.partial", *(f"out.{number}.partial" for number in range(1, 4))]
    expect_names(folder, "file", "out", "victim", *taken)


@test
def all_names_are_taken(folder: pathlib.Path) -> None:
    file, out = lay(folder / "file", NEW), lay(folder / "out", OLD)
    for number in range(1, MOST_NAMES):
        lay(folder / f"out.{number}.partial", b"mine")
        lay(folder / f"file.{number}.partial", b"mine")
    expect_done(file, out)
    expect_form(out.read_bytes(), NEW)
    for path in (lay(out, OLD), file):
        before = path.read_bytes()
        lay(folder / f"{path.name}.partial", b"mine")
        expect_unmade(file, path)
        expect(path.read_bytes() == before, f"{path.name} is not as it was")


@test
def names_of_each_length(folder: pathlib.Path) -> None:
    file = lay(folder / "file", NEW)
    for length in (1, 240, 241, 254, 255):
        out = folder / ("x" * length)
        for _ in range(2):
            expect_done(file, out)
            expect_form(out.read_bytes(), NEW)
    expect(len(names(folder)) == 6, sorted(names(folder)))


if __name__ == "__main__":
    sys.exit(run_all(__doc__))

#!/usr/bin/env python3
"""Compares the shipped checkers for other machines with the library for x86-64.

    tests/targets/run.py [--pickles N] [--seed N] [--release FOLDER] [--table]

Each answers for the worked rows of examples/cases.tsv and for mutated pickles, with the verdict
under a list, its place, its reason and names, and with the imports. Those for other processors run
under qemu, the one for Windows under Wine, WebAssembly under node; what isn't installed is skipped.
The listings of WebAssembly are compared with those of `pktool dis`, of a part of the pickles.

The last line counts. With --table, docs/MACHINES.md gets the list of what was tried.
"""

from __future__ import annotations

import argparse
import os
import platform
import re
import shutil
import struct
import subprocess
import sys
import tempfile
from pathlib import Path
from typing import Iterator, List, NamedTuple, Optional, Tuple

HERE = Path(__file__).resolve().parent
ROOT = HERE.parent.parent
sys.path.insert(0, str(HERE.parent))

import mutations  # noqa: E402
import program  # noqa: E402
from languages import lack_of_node, too_old  # noqa: E402

SECONDS = 900
LISTINGS = 400
MOST_LISTED = 100_000_000
LIST = b"""\
version = 1
[imports]
collections = ["OrderedDict", "Counter"]
datetime = ["datetime", "timezone", "timedelta"]
m = ["f"]
"""
RETARGET = ROOT / "release" / "machines" / "retarget"
REFUSED = {
    "declare void @rattle_dealloc(ptr, i64, i64)": False,
    "declare i64 @llvm.umin.i64(i64, i64)": False,
    "declare i64 @write(i32, ptr, i64)": True,
    "  %p = inttoptr i64 %n to ptr": True,
    'module asm ".globl a"': True,
    '  call void asm sideeffect "nop", ""()': True,
}
"""Lines of modules, and whether release/machines/retarget must refuse them."""
TABLE = re.compile(r"(?s)(?<=<!-- made by tests/targets/run.py --table -->\n).*?(?=<!-- end -->)")


class Target(NamedTuple):
    """A machine, the shipped archive for it, and what its checker takes."""

    name: str
    archive: str
    compiler: str
    runner: str
    options: Tuple[str, ...] = ()


TARGETS = [
    Target("Linux on x86-64, glibc", "x86_64-linux", "gcc", ""),
    Target("Linux on x86-64, musl", "x86_64-linux", "musl-gcc", "", ("-static",)),
    Target(
        "Linux on arm64",
        "aarch64-linux",
        "aarch64-linux-gnu-gcc",
        "qemu-aarch64-static",
        ("-static",),
    ),
    Target(
        "Linux on riscv64",
        "riscv64-linux",
        "riscv64-linux-gnu-gcc",
        "qemu-riscv64-static",
        ("-static",),
    ),
    Target("Windows on x86-64", "x86_64-windows", "x86_64-w64-mingw32-gcc", "wine"),
    Target("WebAssembly", "wasm", "", "node"),
    Target(
        "Linux on armhf, in C",
        "portable",
        "arm-linux-gnueabihf-gcc",
        "qemu-arm-static",
        ("-static", "-O1"),
    ),
    Target(
        "Linux on s390x, in C",
        "portable",
        "s390x-linux-gnu-gcc",
        "qemu-s390x-static",
        ("-static", "-O1"),
    ),
]


class Tried(NamedTuple):
    """What came of a target."""

    target: Target
    answers: str
    """What it printed; empty if it was not tried."""
    why: str
    """Why not, or why it failed."""
    is_skipped: bool = False


def worked() -> Iterator[Tuple[bytes, bytes]]:
    """The list and the pickle of each worked row without options."""
    for line in (ROOT / "examples" / "cases.tsv").read_text(encoding="utf-8").splitlines():
        if line.startswith("#"):
            continue
        name, listed, options = line.split("\t")[:3]
        pickle = ROOT / "examples" / "pickles" / f"{name}.pickle"
        allow = ROOT / "examples" / "lists" / f"{listed}.toml"
        if options == "-" and pickle.is_file() and allow.is_file():
            yield allow.read_bytes(), pickle.read_bytes()


def write_corpus(path: Path, rows: List[Tuple[bytes, bytes]]) -> None:
    with path.open("wb") as file:
        for row in rows:
            for part in row:
                file.write(struct.pack("<I", len(part)) + part)


def unpacked(release: Path, target: Target, work: Path) -> Optional[Path]:
    """The folder of the shipped archive."""
    found = sorted(release.glob(f"libstorklocker-*-{target.archive}.tar.gz"))
    if not found:
        return None
    folder = work / found[0].name[: -len(".tar.gz")]
    if not folder.exists():
        subprocess.run(["tar", "-C", work, "-xzf", found[0]], check=True)
    return folder


def built(target: Target, folder: Path, work: Path) -> Path:
    """The program that asks the library of a target."""
    made = work / target.compiler
    made.mkdir()
    shutil.copy(HERE / "answers.c", made)
    if target.archive.endswith("windows"):
        shutil.copy(folder / "storklocker.dll", made)
        libraries = [f"-I{folder}", f"{folder}/libstorklocker.dll.a"]
    elif target.archive == "portable":
        libraries = [f"-I{folder}", "-isystem", f"{folder}/made"]
        libraries += [f"{folder}/portable.c", f"{folder}/storklocker.c"]
    else:
        libraries = [f"-I{folder}/include", f"{folder}/lib/libstorklocker.a"]
    words = [target.compiler, "-O2", "-o", "answers.exe", "answers.c", *libraries, *target.options]
    subprocess.run(words, cwd=made, check=True, capture_output=True, text=True)
    return made / "answers.exe"


def lacking(target: Target) -> str:
    """What is missing here to try a target, or nothing."""
    for word in (target.compiler, target.runner):
        if word and shutil.which(word) is None:
            return f"there is no {word}"
    if target.runner == "node":
        return lack_of_node()
    if target.archive == "riscv64-linux":
        return too_old("riscv64-linux-gnu-ld", (2, 36))  # (before, no linker knows `zifencei`)
    if not target.runner and platform.machine() != "x86_64":
        return "this is no x86-64 machine"
    return ""


def tried(target: Target, asked: argparse.Namespace, work: Path, corpus: Path) -> Tried:
    why = lacking(target)
    folder = None if why else unpacked(asked.release, target, work)
    if folder is None:
        return Tried(target, "", why or "release/ has no archive for it", True)
    try:
        if target.compiler:
            words = [str(built(target, folder, work)), str(corpus)]
        else:
            words = [str(HERE / "answers.mjs"), str(folder), str(corpus), str(work / "listings")]
        words = [target.runner, *words] if target.runner else words
        environment = {**os.environ, "WINEPREFIX": str(work / "wine"), "WINEDEBUG": "-all"}
        run = subprocess.run(
            words, capture_output=True, text=True, timeout=SECONDS, env=environment, check=True
        )
    except subprocess.CalledProcessError as error:
        return Tried(target, "", f"{error}: {error.stderr[-500:]}")
    except subprocess.TimeoutExpired as error:
        return Tried(target, "", str(error))
    return Tried(target, run.stdout, "")


def differing(answers: str, wanted: str) -> str:
    """The first answer that differs, or nothing."""
    left, right = answers.splitlines(), wanted.splitlines()
    for number, (one, other) in enumerate(zip(left, right)):
        if one != other:
            return f"pickle {number}: {one} instead of {other}"
    return "" if len(left) == len(right) else f"{len(left)} answers for {len(right)} pickles"


def listing_faults(path: Path, pickles: List[bytes], work: Path) -> Iterator[str]:
    """Where the listings of WebAssembly aren't those of the program."""
    data, at = path.read_bytes(), 0
    step = max(1, len(pickles) // LISTINGS)
    file = work / "listed.pickle"
    for number, pickle in enumerate(pickles):
        size = struct.unpack_from("<I", data, at)[0]
        listing = data[at + 4 : at + 4 + size]
        at += 4 + size
        if number % step == 0:
            file.write_bytes(pickle)
            words = [str(program.PROGRAM), "dis", str(file)]
            run = subprocess.run(words, capture_output=True, check=False)
            if run.stdout != listing and len(run.stdout) < MOST_LISTED:
                yield f"the listing of pickle {number} differs from that of pktool dis"


def table(results: List[Tried], count: int) -> str:
    """The lines of docs/MACHINES.md."""
    lines = [f"None of the answers about {count:,} pickles differed on these machines:", ""]
    for it in results:
        words = (it.target.runner, "answers.exe" if it.target.compiler else "answers.mjs")
        command = " ".join(filter(None, words))
        compiler = f", of {it.target.compiler}" if it.target.compiler else ""
        lines.append(f"- {it.target.name}: `{command}`{compiler}")
    return "\n".join(lines) + "\n"


def refusal_faults() -> Iterator[str]:
    """Modules that must not be compiled for another machine, and are."""
    with tempfile.TemporaryDirectory() as name:
        module, out = Path(name, "module.ll"), Path(name, "out.ll")
        for line, is_refused in REFUSED.items():
            module.write_text(f'target triple = "x"\n{line}\n', encoding="utf-8")
            words = [sys.executable, str(RETARGET), str(module), "wasm32-unknown-unknown", str(out)]
            status = subprocess.run(words, capture_output=True, check=False).returncode
            if bool(status) != is_refused:
                yield f"release/machines/retarget ends with {status} for: {line}"


def parsed() -> argparse.Namespace:
    parser = argparse.ArgumentParser(description=(__doc__ or "").partition("\n")[0])
    parser.add_argument("--pickles", type=int, default=20_000, help="mutated pickles")
    parser.add_argument("--seed", type=int, default=1)
    parser.add_argument("--release", type=Path, default=ROOT / "release")
    parser.add_argument("--table", action="store_true", help="write it into docs/MACHINES.md")
    return parser.parse_args()


def faults_of(results: List[Tried]) -> Iterator[str]:
    """What is wrong with each target that was tried."""
    for it in results:
        wrong = it.why or differing(it.answers, results[0].answers)
        if wrong:
            yield f"{it.target.name}: {wrong}"


def write_table(results: List[Tried], count: int) -> None:
    page = ROOT / "docs" / "MACHINES.md"
    text = page.read_text(encoding="utf-8")
    page.write_text(TABLE.sub(lambda _: table(results, count), text), encoding="utf-8")


def main() -> int:
    asked = parsed()
    rows = list(worked())
    rows += [(LIST, mutations.mutated(asked.seed, it)) for it in range(asked.pickles)]
    with tempfile.TemporaryDirectory() as name:
        work = Path(name)
        write_corpus(work / "corpus", rows)
        results = [tried(it, asked, work, work / "corpus") for it in TARGETS]
        skipped = [f"{it.target.name}: {it.why}" for it in results if it.is_skipped]
        results = [it for it in results if not it.is_skipped]
        if not results or results[0].target is not TARGETS[0]:
            print(f"skipped: all machines: {skipped[0]}")
            print("0 passed, 0 failed, 1 skipped")
            return 0
        faults = [*refusal_faults(), *faults_of(results)]
        if (work / "listings").exists() and not faults:
            faults += listing_faults(work / "listings", [row[1] for row in rows], work)
    for fault in faults:
        print(f"failed: {fault}")
    for reason in skipped:
        print(f"skipped: {reason}")
    if asked.table and not faults:
        write_table(results, len(rows))
    failed = min(len(faults), len(results))
    print(f"{len(results) - failed} passed, {len(faults)} failed, {len(skipped)} skipped")
    return 1 if faults else 0


if __name__ == "__main__":
    sys.exit(main())

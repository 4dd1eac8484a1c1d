#!/usr/bin/env python3
"""Compiles and runs the programs of examples/languages by the commands of docs/C.md, in each
language whose compiler is here.

The libraries are those of release/, or of the folder that `--release` names. The last line counts
the programs.
"""

import argparse
import os
import platform
import re
import shutil
import subprocess
import sys
import tempfile
from pathlib import Path
from typing import Iterator, Tuple

from worked import ROOT

COMPILERS = {"C": "cc", "Rust": "cargo", "Go": "go", "Node": "node"}
# Older ones weren't tried with bindings/.
OLDEST = {"Rust": (1, 48), "Go": (1, 15), "Node": (12, 17)}
# Of the scripts in tests/, which await at their top and take `File` from node:buffer.
OLDEST_OF_SCRIPTS = (18, 13)
COMMANDS = re.compile(r"(?ms)^```sh\n(.*?)^```$")
# Pickles on standard input, and what a program says about them.
ANSWERS = {
    (ROOT / "examples/pickles/ordered-dict.pickle").read_bytes(): "yes: 28 bytes, 1 imports",
    b"cos\nsystem\n.": 'no at 0: ImportOffList("os","system")',
    b"\x80\x04\x8c\x01\n\x8c\x01\x1b\x93.": None,
    b"\x80\x04]": "no at 3: Truncated",
    b"": "no at 0: Truncated",
}


def programs() -> Iterator[Tuple[str, str]]:
    """The language and the commands of each program."""
    text = (ROOT / "docs/C.md").read_text()
    for section in text.split("\n## ")[1:]:
        yield section.partition("\n")[0], "".join(COMMANDS.findall(section))


def unpacked(release: Path, folder: Path) -> Path:
    """The library for this machine."""
    machine = platform.machine()
    archives = list(release.glob(f"libstorklocker-*-{machine}-linux.tar.gz"))
    if not archives:
        print("skipped: release/ has no library for this machine")
        print("0 passed, 0 failed, 1 skipped")
        sys.exit()
    archive = archives[0]
    subprocess.run(["tar", "-C", folder, "-xzf", archive], check=True)
    return folder / archive.name[: -len(".tar.gz")]


def lack_of(language: str) -> str:
    """Why a program can't be compiled and run here, or an empty text."""
    compiler = COMPILERS[language]
    for it in (compiler, "cc"):  # with which the others link
        if not shutil.which(it) and (it, language) != ("cc", "Node"):
            return f"without {it}"
    told = "rustc" if language == "Rust" else compiler  # (Debian's cargo has another number)
    return too_old(told, OLDEST[language]) if language in OLDEST else ""


def lack_of_node() -> str:
    """Why the scripts in tests/ can't run here, or an empty text."""
    return too_old("node", OLDEST_OF_SCRIPTS) if shutil.which("node") else "there is no node"


def too_old(compiler: str, oldest: Tuple[int, int]) -> str:
    """That a compiler is older than one that works, or an empty text."""
    word = "version" if compiler == "go" else "--version"
    ran = subprocess.run([compiler, word], stdout=subprocess.PIPE, text=True)
    said = ran.stdout.partition("\n")[0]
    found = re.search(r"(\d+)\.(\d+)", said)
    if found is not None and tuple(map(int, found.groups())) >= oldest:
        return ""
    return f"{compiler} is too old: {said}; {oldest[0]}.{oldest[1]} is wanted"


def fault_of(folder: Path, commands: str, library: Path) -> str:
    """What is wrong with the program in a folder, or an empty text."""
    environment = {**os.environ, "STORKLOCKER": str(library), "GOCACHE": str(folder / "cache")}
    built = subprocess.run(
        ["sh", "-euc", commands], cwd=folder, env=environment, capture_output=True, text=True
    )
    if built.returncode != 0:
        return built.stdout + built.stderr
    for pickle, wanted in ANSWERS.items():
        ran = subprocess.run([folder / "verdict"], input=pickle, capture_output=True)
        said = ran.stdout.decode("ascii").rstrip("\n")
        is_right = said == wanted if wanted is not None else said.isprintable()
        if not is_right or ran.returncode != (not said.startswith("yes")) or ran.stderr:
            return f"{pickle!r}: {said!r}, status {ran.returncode}, {ran.stderr!r}"
    return ""


def main() -> int:
    parser = argparse.ArgumentParser(description=__doc__)
    parser.add_argument("--release", type=Path, default=ROOT / "release")
    given = parser.parse_args()
    passed = failed = skipped = 0
    with tempfile.TemporaryDirectory() as name:
        library = unpacked(given.release, Path(name))
        packages = Path(name, "bindings", "out")
        subprocess.run([ROOT / "bindings" / "pack", packages, given.release], check=True)
        for language, commands in programs():
            lack = lack_of(language)
            if lack:
                print(f"skipped: {language}, {lack}")
                skipped += 1
                continue
            folder = Path(name, "examples", "languages", language.lower())
            shutil.copytree(ROOT / "examples" / "languages" / language.lower(), folder)
            fault = fault_of(folder, commands, library)
            passed, failed = passed + (not fault), failed + bool(fault)
            if fault:
                print(f"failed: {language}: {fault}")
    print(f"{passed} passed, {failed} failed, {skipped} skipped")
    return 1 if failed else 0


if __name__ == "__main__":
    sys.exit(main())

#!/usr/bin/env python3
"""Tests the packages that bindings/pack makes for Rust, Go and Node, where there are compilers: by
their own tests, and by what they say of mutated pickles beside what the program says.

The libraries are those of release/, or of the folder that `--release` names. PKTOOL names the
program. The last line counts.
"""

import argparse
import collections
import hashlib
import os
import platform
import shutil
import struct
import subprocess
import sys
import tempfile
from pathlib import Path
from typing import Dict, List, NamedTuple, Tuple

HERE = Path(__file__).resolve().parent
sys.path.insert(0, str(HERE.parent))

import mutations  # noqa: E402
import program  # noqa: E402
import progress  # noqa: E402
from languages import lack_of  # noqa: E402
from soak import LIST  # noqa: E402

ROOT = program.ROOT
JOBS = 4
SECONDS = 20
CHUNK = 250
# How a pickle is checked: its number in the corpus is the place here.
KINDS: List[Tuple[str, ...]] = [
    (),
    ("--old-strings", "ascii"),
    ("--old-strings", "bytes"),
    ("--all",),
    ("--all", "--one-unpickler"),
]
ONE_UNPICKLER = 4


class Answer(NamedTuple):
    """What the program prints of a pickle."""

    check: str
    imports: str
    listing: bytes

    def of_libraries(self) -> str:
        return self.check + self.imports

    def of_node(self, kind: int) -> str:
        """Each import once, and the digest of the listing."""
        *found, last = self.imports.splitlines()
        lines = ["one Unpickler" if kind == ONE_UNPICKLER else self.check.rstrip("\n")]
        lines += [f"{count} {it}" for it, count in collections.Counter(found).items()]
        lines.append("yes" if last.startswith("yes: ") else last)
        return "\n".join([*lines, hashlib.sha256(self.listing).hexdigest(), ""])


class Language(NamedTuple):
    """How a package is tested, built and asked."""

    name: str
    tests: List[str]
    builds: List[str]
    asks: List[str]


LANGUAGES = [
    Language(
        "Rust",
        ["cargo", "test", "--offline", "--quiet"],
        ["cargo", "build", "--offline", "--quiet", "--example", "answers"],
        ["target/debug/examples/answers"],
    ),
    Language("Go", ["go", "test", "."], ["go", "build", "-o", "asked", "./answers"], ["./asked"]),
    Language("Node", ["node", "test.mjs"], [], ["node", str(HERE / "answers.mjs"), "."]),
]
# Where the source of what asks a package belongs in it.
ASKING = {"Rust": "examples/answers.rs", "Go": "answers/answers.go"}


def pickles(count: int, seed: int) -> List[bytes]:
    """The examples, and mutated pickles."""
    found = [it.read_bytes() for it in sorted(mutations.EXAMPLES.glob("*.pickle"))]
    return found + [mutations.mutated(seed, it) for it in range(count - len(found))]


def kind_of(number: int) -> int:
    return number % len(KINDS)


def answers(task: Tuple[int, List[bytes], Path]) -> Tuple[int, List[Answer]]:
    """What the program says of pickles that follow one another from this number on."""
    start, chunk, allow = task
    found = []
    with tempfile.TemporaryDirectory() as name:
        file = Path(name, "it.pickle")
        runner = program.Runner(program.PROGRAM, SECONDS)
        for number, pickle in enumerate(chunk, start):
            file.write_bytes(pickle)
            words = ("check", *KINDS[kind_of(number)], "--allow", str(allow), str(file))
            check, imports, listing = (
                runner.run(it).out for it in (words, ("imports", str(file)), ("dis", str(file)))
            )
            found.append(Answer(check.decode(), imports.decode(), listing))
    return start, found


def wanted(corpus: List[bytes], allow: Path) -> List[Answer]:
    tasks = [(at, corpus[at : at + CHUNK], allow) for at in range(0, len(corpus), CHUNK)]
    found = dict(progress.results_of(answers, tasks, "parts", JOBS))
    return [answer for start in sorted(found) for answer in found[start]]


def run(words: List[str], folder: Path) -> "subprocess.CompletedProcess[bytes]":
    environment = {
        **os.environ,
        "CARGO_TARGET_DIR": str(folder / "target"),
        "GOCACHE": str(folder.parent / "cache"),
        "GOFLAGS": "-mod=mod",
        "GOPROXY": "off",
    }
    return subprocess.run(words, cwd=folder, capture_output=True, env=environment, check=False)


def difference(said: str, answers_: List[str]) -> str:
    """The first pickle of which something else is said, or nothing."""
    for number, answer in enumerate(answers_):
        if not said.startswith(answer):
            return f"of pickle {number} it says {said[:300]!r} instead of {answer[:300]!r}"
        said = said[len(answer) :]
    return f"it says more: {said[:300]!r}" if said else ""


def fault_of(language: Language, packed: Path, files: List[Path], told: List[str]) -> str:
    """What is wrong with a package, or nothing."""
    folder = packed / language.name.lower()
    tested = run(language.tests, folder)
    if tested.returncode != 0:
        return (tested.stdout + tested.stderr).decode()
    if language.name in ASKING:
        source = folder / ASKING[language.name]
        source.parent.mkdir()
        shutil.copy(HERE / source.name, source)
        built = run(language.builds, folder)
        if built.returncode != 0:
            return built.stderr.decode()
    asked = run([*language.asks, *map(str, files)], folder)
    if asked.returncode != 0:
        return asked.stderr.decode()
    return difference(asked.stdout.decode(), told)


def parsed() -> argparse.Namespace:
    parser = argparse.ArgumentParser(description=(__doc__ or "").partition("\n")[0])
    parser.add_argument("--pickles", type=int, default=6000)
    parser.add_argument("--seed", type=int, default=1)
    parser.add_argument("--release", type=Path, default=ROOT / "release")
    return parser.parse_args()


def lacking(release: Path) -> Dict[str, str]:
    """Why a language isn't tested here."""
    found = {it.name: lack_of(it.name) for it in LANGUAGES}
    machine = platform.machine()
    if not list(release.glob(f"libstorklocker-*-{machine}-linux.tar.gz")):
        found.update({it: f"without a library for {machine}" for it in ("Rust", "Go")})
    return {name: why for name, why in found.items() if why}


def main() -> int:
    asked = parsed()
    program.require(program.PROGRAM)
    lacks = lacking(asked.release)
    tested = [it for it in LANGUAGES if it.name not in lacks]
    failed = 0
    with tempfile.TemporaryDirectory() as name:
        allow, file, packed = (Path(name, it) for it in ("list.toml", "corpus", "packed"))
        subprocess.run([ROOT / "bindings" / "pack", packed, asked.release], check=True)
        corpus = pickles(asked.pickles, asked.seed)
        allow.write_text(LIST)
        records = (
            struct.pack("<BI", kind_of(number), len(it)) + it for number, it in enumerate(corpus)
        )
        file.write_bytes(b"".join(records))
        said = wanted(corpus, allow) if tested else []
        for language in tested:
            is_node = language.name == "Node"
            told = [
                it.of_node(kind_of(number)) if is_node else it.of_libraries()
                for number, it in enumerate(said)
            ]
            fault = fault_of(language, packed, [file, allow], told)
            failed += bool(fault)
            print(f"failed: {language.name}: {fault}" if fault else f"{language.name}: passed")
    for language_name, why in lacks.items():
        print(f"skipped: {language_name}, {why}")
    print(f"{len(tested) - failed} passed, {failed} failed, {len(lacks)} skipped")
    return 1 if failed else 0


if __name__ == "__main__":
    sys.exit(main())

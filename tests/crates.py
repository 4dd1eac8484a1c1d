#!/usr/bin/env python3
"""Compiles the tests in `tests/crates` and the examples in the crates' doc comments, with checks
and without a proof, and runs them.

The tests call the crates as those of `crates/pkrows` do, which are proved: a proof of a test says
that it never stops, and takes the gate most of its time. They are Rattle's, named as Rust's, since
`rt ci` wants a proof of each file of Rattle's. An example is a block of `rust`, in which `rt` is
the runtime and `alloc` its allocator. A line for each that fails; the last line counts.
"""
import pathlib
import re
import shutil
import subprocess
import sys
import tempfile
from typing import Dict, Set

ROOT = pathlib.Path(__file__).resolve().parent.parent
CRATES = ROOT / "crates"
FILES = sorted((ROOT / "tests" / "crates").glob("*.rs"))
# What they share with those that are proved.
SHARED = ("giving", "judging")
# What examples use beyond that.
BEYOND = "pkprint"
SECONDS = 600
PASSED = re.compile(r"(?m)^test (\S+) \.\.\. ok$")
TEST = re.compile(r"#\[test\]\nfn (\w+)")
EXAMPLE = re.compile(r"(?ms)^ *//[/!] ```rust\n(.*?)^ *//[/!] ```$")
# An item at the margin of an example: up to a line that ends it, which no statement's line does.
ITEM = re.compile(r"(?ms)^(?:(?:use|const) .*?;$|(?:#\[|fn |struct |enum |impl\b).*?^}$)\n?")


def as_test(example: str) -> str:
    """An example as the text of a module: its items, and a test of its statements."""
    items = "".join(ITEM.findall(example))
    statements = ITEM.sub("", example).strip()
    return (
        f"{items}use std::process::Abort;\nuse std::test::Fail;\n\n#[test]\n"
        "fn example(rt: HostRuntime) -> Result<(), Fail> {\n"
        f"let alloc = rt.alloc();\n{statements}\nOk(())\n}}\n"
    )


def examples() -> Dict[str, str]:
    """The modules of all examples, by names that say the crate, the file and the line."""
    found = {}
    for file in sorted(CRATES.glob("*/src/**/*.rt")):
        text = file.read_text(encoding="utf-8")
        place = "_".join(file.relative_to(CRATES).with_suffix("").parts).replace("_src", "")
        for match in EXAMPLE.finditer(text):
            line = text.count("\n", 0, match.start()) + 1
            found[f"{place}_{line}"] = as_test(re.sub(r"(?m)^ *//[/!] ?", "", match[1]))
    return found


def made(folder: pathlib.Path) -> pathlib.Path:
    """Makes a repository of copies of the crates and one more; returns the folder of that one."""
    shutil.copytree(CRATES, folder / "crates", ignore=shutil.ignore_patterns("out"))
    listed = (ROOT / "crates.txt").read_text(encoding="utf-8")
    found = re.search(r"(?m)^pkrows(:.*)$", listed)
    assert found, "crates.txt has no line of pkrows"
    line = f"tests{found[1]} {BEYOND}\n"
    (folder / "crates.txt").write_text(listed + line, encoding="utf-8")
    crate = folder / "crates" / "tests"
    (crate / "src").mkdir(parents=True)
    for file in FILES:
        shutil.copy(file, crate / "src" / f"{file.stem}.rt")
    with open(crate / "src" / "lib.rt", "a", encoding="utf-8") as root:
        for name, text in examples().items():
            (crate / "src" / f"{name}.rt").write_text(text, encoding="utf-8")
            root.write(f"#[cfg(test)]\nmod {name};\n")
    for name in SHARED:
        shutil.copy(CRATES / "pkrows" / "src" / f"{name}.rt", crate / "src")
    return crate


def names() -> Set[str]:
    tests = {
        f"{file.stem}::{name}"
        for file in FILES
        for name in TEST.findall(file.read_text(encoding="utf-8"))
    }
    return tests | {f"{name}::example" for name in examples()}


def main() -> int:
    with tempfile.TemporaryDirectory() as folder:
        ran = subprocess.run(
            ["rt", "try", "--test", "--seconds", str(SECONDS)],
            cwd=made(pathlib.Path(folder)),
            stdin=subprocess.DEVNULL,
            stdout=subprocess.PIPE,
            stderr=subprocess.STDOUT,
            encoding="utf-8",
            errors="replace",
        )
    wanted, passed = names(), set(PASSED.findall(ran.stdout))
    wrong = sorted(wanted ^ passed)
    if wrong:
        print(ran.stdout)
    for name in wrong:
        print(f"failed: {name}")
    print(f"{len(wanted & passed)} passed, {len(wrong)} failed")
    return 1 if wrong else 0


if __name__ == "__main__":
    sys.exit(main())

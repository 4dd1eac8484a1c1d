#!/usr/bin/env python3
"""Counts processor instructions per pickle instruction, over the whole command, and profiles them.

`valgrind --tool=callgrind` counts them, so the load of the machine doesn't matter. The pickle is
plain data in protocol 4. With `--python` it also counts `pickle.loads`, as a Python that loads the
pickle less one that only reads it.

What keeps the number low:

- Instructions are judged in the source's own bytes, in one pass as far as the open frame. One table
  has the opcode and the length of most. A file that can seek skips large payloads.
- The stage of a reader and the bytes that it can still take are one number, so an instruction costs
  one test.
- The operations that occur most look at the topmost entries only. What is known about an object is
  a number of four bytes, decoded on demand. Memo numbers index a vector while they are consecutive.
- Rare paths are out of line, so that the compiler doesn't clear their stack slots for every
  instruction. Inlining hints go from the loop to the operations, or not at all: LLVM ignores
  `inline(always)` in a function that would grow very large.
- `simdutf8` checks texts of 40 bytes or more, `std` shorter ones. `memchr` for line ends was slower
  on all but long texts.
- The optimizer copies what lies between two memo instructions in one piece.
"""
import argparse
import pathlib
import pickletools
import re
import shutil
import subprocess
import sys
import tempfile
from typing import Iterator, List

import program
import shapes

# What Python runs, with and without the load. It exits at once, without teardown.
READ = """
import gc, os, pickle
gc.disable()
data = open({path!r}, "rb").read()
{load}
os._exit(0)
"""
LOADS = ["pass", "kept = pickle.loads(data)"]


def counted(command: List[str], profile: pathlib.Path) -> int:
    """The instructions that a command executes. Its profile is left in a file."""
    words = ["valgrind", "--tool=callgrind", f"--callgrind-out-file={profile}"]
    ended = subprocess.run(words + command, capture_output=True, text=True)
    if ended.returncode != 0:
        sys.exit(ended.stdout + ended.stderr)
    return int(re.findall(r"Collected : (\d+)", ended.stderr)[0])


def functions(profile: pathlib.Path, count: int) -> Iterator[str]:
    """The most expensive functions, with their share and their instructions per pickle instruction.
    """
    words = ["callgrind_annotate", "--threshold=100", str(profile)]
    listed = subprocess.run(words, capture_output=True, text=True, check=True).stdout
    for line in listed.splitlines():
        found = re.match(r"\s*([\d,]+) \(\s*([\d.]+)%\)\s+(?:\S+?:)?(.+)", line)
        if found and "PROGRAM TOTALS" not in line:
            taken = int(found.group(1).replace(",", ""))
            name = re.sub(r"\s*\[\S*\]$", "", found.group(3)).strip()
            yield f"{taken / count:8.1f} {float(found.group(2)):6.2f}%  {name}"


def of_python(path: pathlib.Path, folder: pathlib.Path) -> int:
    """The instructions of `pickle.loads`, beyond those of a Python that does all the rest."""
    profile = folder / "python"
    texts = [READ.format(path=str(path), load=load) for load in LOADS]
    without, loaded = (counted([sys.executable, "-S", "-E", "-c", text], profile) for text in texts)
    return loaded - without


def main() -> None:
    words = argparse.ArgumentParser(description=__doc__.splitlines()[0])
    words.add_argument(
        "--records", type=int, default=shapes.RECORDS // 5, help="number of records in the pickle"
    )
    words.add_argument("--top", type=int, default=20, help="how many functions to list (20)")
    words.add_argument("--python", action="store_true", help="count for pickle.loads too")
    asked = words.parse_args()
    if shutil.which("valgrind") is None:
        sys.exit("wants valgrind")
    program.build()
    with tempfile.TemporaryDirectory() as name:
        folder = pathlib.Path(name)
        path, allow, profile = folder / "pickle", folder / "list.toml", folder / "profile"
        shapes.write(path, shapes.plain(4, asked.records))
        allow.write_text(shapes.LIST)
        count = sum(1 for _ in pickletools.genops(path.read_bytes()))
        print(f"{count:,} pickle instructions, {path.stat().st_size:,} bytes")
        taken = counted(program.command(allow, path), profile)
        print(f"pktool check: {taken / count:.1f} processor instructions for each")
        if asked.python:
            print(f"pickle.loads: {of_python(path, folder) / count:.1f}")
        for line in list(functions(profile, count))[: asked.top]:
            print(line)


if __name__ == "__main__":
    main()

#!/usr/bin/env python3
"""Standard output that takes nothing, or only a part: the program says so, with the status 2.

Each command writes to a pipe that its reader has closed, to a full device and to files that have
room for a part of its answer. The controls are a pipe that is read and a file with just enough
room: there the same command has an answer and the status of that answer. A fault for which standard
error takes nothing keeps the status 2.
"""
import os
import pathlib
import resource
import signal
import subprocess
import sys
import tempfile
from typing import List, Tuple

import program

SECONDS = 20
FAULT = (2, b"cannot write standard output\n")

# The words of a command in a folder, and the status of its answer.
COMMANDS: List[Tuple[List[str], int]] = [
    (["dis", "yes"], 0),
    (["dis", "no"], 1),
    (["imports", "yes"], 0),
    (["imports", "no"], 1),
    (["check", "--allow", "list", "yes"], 0),
    (["check", "--allow", "list", "no"], 1),
    (["check", "--allow", "list", "--all", "yes"], 0),
    (["check", "--allow", "list", "."], 1),
    (["json", "yes"], 0),
    (["json", "no"], 1),
    # answers that are longer than a buffer
    (["dis", "long"], 0),
    (["imports", "long"], 0),
    (["check", "--allow", "list", "long"], 1),
    (["check", "--allow", "list", "--all", "long"], 1),
    (["json", "data"], 0),
    (["optimize", "yes", "out"], 0),
    (["optimize", "no", "out"], 1),
    (["--help"], 0),
    (["check", "--help"], 0),
    (["--version"], 0),
]
# The words of commands that have a fault.
FAULTS: List[List[str]] = [[], ["dis", "none"], ["check", "--allow", "none", "yes"]]

# An answer has it as 80,000 characters, which is more than a buffer holds.
NAME = 10_000 * b"\xc3\xa9"
FILES = {
    "yes": b"N.",
    "no": b"\xff",
    "long": b"\x8c\x01mX" + len(NAME).to_bytes(4, "little") + NAME + b"\x93.",
    "data": b"](" + 20_000 * b"N" + b"e.",
    "list": b"version = 1\n[imports]\n",
}


def ran(
    folder: str, words: List[str], out: int, err: int = subprocess.PIPE
) -> "subprocess.CompletedProcess[bytes]":
    """Runs the program, with these as standard output and standard error."""
    whole = [str(program.PROGRAM), *words]
    return subprocess.run(whole, cwd=folder, stdout=out, stderr=err, timeout=SECONDS, check=False)


def closed(folder: str, words: List[str]) -> Tuple[int, bytes]:
    """How a command ends whose standard output is a pipe that nobody reads."""
    reader, writer = os.pipe()
    os.close(reader)
    try:
        ended = ran(folder, words, writer)
    finally:
        os.close(writer)
    return ended.returncode, ended.stderr


def full(folder: str, words: List[str]) -> Tuple[int, bytes]:
    """How a command ends whose standard output is a full device."""
    with open("/dev/full", "wb") as device:
        ended = ran(folder, words, device.fileno())
    return ended.returncode, ended.stderr


def limited(folder: str, words: List[str], room: int) -> Tuple[int, bytes, bytes]:
    """How a command ends whose standard output is a file that has room for so many bytes, and what
    is in the file.
    """

    def limit() -> None:
        signal.signal(signal.SIGXFSZ, signal.SIG_IGN)
        resource.setrlimit(resource.RLIMIT_FSIZE, (room, room))

    with tempfile.TemporaryFile() as file:
        ended = subprocess.run(
            [str(program.PROGRAM), *words],
            cwd=folder,
            stdout=file,
            stderr=subprocess.PIPE,
            timeout=SECONDS,
            check=False,
            preexec_fn=limit,
            restore_signals=False,
        )
        file.seek(0)
        return ended.returncode, ended.stderr, file.read()


def fault_of(folder: str, words: List[str], status: int) -> str:
    """What a command does that it mustn't, or nothing."""
    control = ran(folder, words, subprocess.PIPE)
    if control.returncode != status or not control.stdout or control.stderr:
        return f"the control: {control}"
    for ended in (closed(folder, words), full(folder, words)):
        if ended != FAULT:
            return str(ended)
    return "" if words[0] == "optimize" else fault_of_parts(folder, words, control.stdout, status)


def fault_of_parts(folder: str, words: List[str], answer: bytes, status: int) -> str:
    """What a command does that it mustn't if its answer doesn't fit, or nothing. An answer to
    `optimize` isn't tried: its OUT would not fit either.
    """
    size = len(answer)
    for room in {0, 1, size // 3, size // 2, size - 1}:
        ended = limited(folder, words, room)
        if ended != (*FAULT, answer[:room]):
            return f"with room for {room} of {size} bytes: {ended[:2]}"
    ended = limited(folder, words, size)
    return "" if ended == (status, b"", answer) else f"the control, of {size} bytes: {ended[:2]}"


def fault_untold(folder: str, words: List[str]) -> str:
    """What a command with a fault does that it mustn't if it can't say so, or nothing."""
    control = ran(folder, words, subprocess.PIPE)
    if control.returncode != 2 or control.stdout or not control.stderr:
        return f"the control: {control}"
    reader, writer = os.pipe()
    os.close(reader)
    with open(writer, "wb") as closed_pipe, open("/dev/full", "wb") as device:
        for file in (closed_pipe, device):
            ended = ran(folder, words, subprocess.PIPE, file.fileno())
            if (ended.returncode, ended.stdout) != (2, b""):
                return str(ended)
    return ""


def main() -> int:
    program.require(program.PROGRAM)
    passed = 0
    with tempfile.TemporaryDirectory() as folder:
        place = pathlib.Path(folder)
        for name, content in FILES.items():
            (place / name).write_bytes(content)
        faults = [(words, fault_of(folder, words, status)) for words, status in COMMANDS]
        faults += [(words, fault_untold(folder, words)) for words in FAULTS]
    for words, fault in faults:
        passed += not fault
        if fault:
            print(f"failed: pktool {' '.join(words)}: {fault}"[:1000])
    print(f"{passed} passed, {len(faults) - passed} failed")
    return int(passed < len(faults))


if __name__ == "__main__":
    sys.exit(main())

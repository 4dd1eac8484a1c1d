"""What examples/yes-and-no.txt uses: a check, and a load in a process with limits."""

import resource
import subprocess
import sys
from typing import Any, Tuple, Union

import storklocker

MEMORY = 1 << 30


def answer(data: bytes, *pairs: Tuple[str, str], **settings: Any) -> str:
    """The verdict on a pickle under a list of these pairs."""
    return str(storklocker.check(data, storklocker.AllowList(pairs), **settings))


def load(data: bytes, then: str = "", seconds: int = 2) -> Tuple[Union[int, str], ...]:
    """How a process ends that loads a pickle as `made` and goes on, and the last line it prints."""

    def limit() -> None:
        resource.setrlimit(resource.RLIMIT_AS, (MEMORY, MEMORY))
        resource.setrlimit(resource.RLIMIT_CPU, (seconds, seconds))
        resource.setrlimit(resource.RLIMIT_CORE, (0, 0))

    code = "import os, pickle, sys; made = pickle.load(sys.stdin.buffer)\n" + then
    words = [sys.executable, "-c", code]
    ended = subprocess.run(words, input=data, capture_output=True, preexec_fn=limit)
    last = (ended.stdout + ended.stderr).decode().splitlines()[-1:]
    return (ended.returncode, *last)

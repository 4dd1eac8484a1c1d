"""Makes the C library refuse a program's requests: builds refuse.c, and tells it what to refuse."""
import os
import pathlib
import subprocess
from typing import Dict, Optional

SOURCE = pathlib.Path(__file__).resolve().parent / "refuse.c"


def built(folder: str) -> Optional[pathlib.Path]:
    """The library that refuses, or None if no C compiler builds it."""
    library = pathlib.Path(folder, "refuse.so")
    compiler = os.environ.get("CC", "cc")
    words = [compiler, "-O2", "-Wall", "-Wextra", "-shared", "-fPIC", "-o", str(library)]
    try:
        made = subprocess.run([*words, str(SOURCE)], stderr=subprocess.PIPE, text=True)
    except OSError as error:
        print(f"cannot start {compiler} ({error.strerror}): these tests need a C compiler")
        return None
    if made.returncode:
        print(f"{compiler} cannot build {SOURCE.name}, so nothing was tested:\n{made.stderr}")
        return None
    return library


class Refuser:
    """Tells the library what to refuse in the next run, and knows whether it did."""

    def __init__(self, library: pathlib.Path) -> None:
        self.library = str(library)
        self.told = os.memfd_create("told")
        os.set_inheritable(self.told, True)

    def environment(self, kind: str, first: int, every: bool = False) -> Dict[str, str]:
        os.ftruncate(self.told, 0)
        words = {"LD_PRELOAD": self.library, "REFUSE_WHAT": kind, "REFUSE_FIRST": str(first)}
        return {**words, "REFUSE_TELLS": str(self.told), **({"REFUSE_ALL": "1"} if every else {})}

    def has_refused(self) -> bool:
        return os.fstat(self.told).st_size > 0

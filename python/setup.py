"""Puts the extension module, which `make` compiles, into the package; from a source distribution,
also the program and its pages.
"""

import gzip
import os
import pathlib
import platform
import shutil
import subprocess
import sys

from setuptools import Extension, setup
from setuptools.command.build_ext import build_ext

HERE = pathlib.Path(__file__).resolve().parent
SHARED = HERE / "share"
MACHINE = platform.machine() if sys.platform == "linux" and sys.maxsize >> 32 else sys.platform
SHIPPED = HERE / "checker" / f"libpkguard-{MACHINE}.a"
"""The checker of a source distribution, which was proved and compiled for this processor."""
MADE = HERE / "checker" / "made"
"""The checker of a source distribution for other machines, in C."""
PROGRAM = HERE / "checker" / f"pktool-{MACHINE}.gz"
BUILT = HERE.parent / "crates" / "pkguard" / "out" / "libpkguard.a"
"""The checker that a clone has proved and compiled."""


def words():
    """The archive of the checker, for `make`."""
    named = os.environ.get("STORKLOCKER_ARCHIVE")
    if named:
        return ["--archive", named]
    found = [it for it in (SHIPPED, BUILT, MADE) if it.exists()]
    if found and sys.platform in ("darwin", "win32"):
        system = platform.system()
        raise SystemExit(f"storklocker: it isn't built for {system} yet, only for Linux.")
    if found:
        print(f"storklocker: the checker is {found[0].name}", file=sys.stderr)
        return ["--archive", str(found[0])]
    if shutil.which("rt"):
        return []
    raise SystemExit(
        f"storklocker: {BUILT} isn't there, and no rt is on the path to prove and build it.\n"
        "Install a released file, or name a libpkguard.a in STORKLOCKER_ARCHIVE."
    )


class Make(build_ext):
    """Compiles with `make`, with the flags of the released wheels."""

    def build_extension(self, ext):
        out = pathlib.Path(self.get_ext_fullpath(ext.name)).resolve().parent
        command = ["sh", str(HERE / "make"), *words(), "--python", sys.executable]
        if subprocess.run([*command, "--out", str(out)]).returncode != 0:
            raise SystemExit("storklocker: the extension module could not be made")
        if PROGRAM.exists():
            (out / "pktool").write_bytes(gzip.decompress(PROGRAM.read_bytes()))
            (out / "pktool").chmod(0o755)


def pages():
    """The manual page and the completions, by the folders that they belong in."""
    files = [it.relative_to(HERE) for it in sorted(SHARED.rglob("*")) if it.is_file()]
    return [(str(it.parent), [str(it)]) for it in files]


setup(
    ext_modules=[Extension("storklocker._storklocker", [], py_limited_api=True)],
    cmdclass={"build_ext": Make},
    data_files=pages(),
    options={"bdist_wheel": {"py_limited_api": "cp38"}},
)

"""Runs each test of an adapter in a process of its own. The last line counts them; an adapter whose
service is not installed is skipped.
"""

import ast
import concurrent.futures
import importlib
import importlib.util
import os
import shutil
import subprocess
import sys
import tempfile
import time
from pathlib import Path

HERE = Path(__file__).resolve().parent
# After so many seconds a test hangs: it ends, and says where.
SECONDS = 900
# They mostly wait for their servers.
TOGETHER = 2


def is_missing(name):
    """Whether a module is missing, or a program, whose name begins with `$`."""
    if name.startswith("$"):
        return shutil.which(name[1:]) is None
    try:
        return importlib.util.find_spec(name) is None
    except ModuleNotFoundError:
        return True


def missing_for(name):
    """What a test needs and this machine lacks."""
    text = (HERE / f"{name}.py").read_text(encoding="utf-8")
    line = next(it for it in text.splitlines() if it.startswith("NEEDS = "))
    return [it for it in ast.literal_eval(line[len("NEEDS = ") :]) if is_missing(it)]


def run(name):
    """What a test prints, and whether it passes, with no mark left by a hostile pickle."""
    with tempfile.TemporaryDirectory() as marks, tempfile.TemporaryDirectory() as modules:
        path = os.pathsep.join([str(HERE), modules, *filter(None, [os.environ.get("PYTHONPATH")])])
        # (its clients would ask a server that has gone when they are cleared away)
        limit = f"import faulthandler; faulthandler.dump_traceback_later({SECONDS}, exit=True)"
        words = [sys.executable, "-c", f"{limit}; import os, {name}; {name}.run(); os._exit(0)"]
        environment = {**os.environ, "PYTHONPATH": path, "STORKLOCKER_MARKS": marks}
        environment.update(PYTHONDONTWRITEBYTECODE="1", STORKLOCKER_MODULES=modules)
        began = time.monotonic()
        ran, said = ended(words, environment)
        took = time.monotonic() - began
        left = sorted(Path(marks).iterdir())
        for mark in left:
            text = mark.read_text()[:2000] if mark.is_file() else ""
            said += f"{name}: a mark: {mark.name} {text}\n"
        is_good = ran == 0 and not left
        if not is_good:
            # The last line says what went wrong.
            said += f"failed: {name}: {(said.strip().splitlines() or [ran])[-1]}\n"
        return f"{said}{name}: {'passed' if is_good else 'failed'}, {took:.1f} s", is_good


def ended(words, environment):
    """The status of a process and its output."""
    with tempfile.TemporaryFile("w+", encoding="utf-8", errors="replace") as output:
        both = {"stdout": output, "stderr": subprocess.STDOUT}
        ran = subprocess.run(words, cwd=HERE, env=environment, **both)
        output.seek(0)
        return ran.returncode, output.read()


def main():
    passed = failed = skipped = 0
    if is_missing("storklocker._storklocker"):
        print(f"{sys.executable} doesn't find the package: python/make builds its module")
        print("0 passed, 1 failed")
        return 1
    names = []
    for path in sorted(HERE.glob("test_*.py")):
        missing = missing_for(path.stem)
        if missing:
            print(f"skipped: {path.stem}: not installed: {', '.join(missing)}", flush=True)
            skipped += 1
        else:
            names.append(path.stem)
    with concurrent.futures.ThreadPoolExecutor(TOGETHER) as pool:
        for said, is_good in pool.map(run, names):
            print(said, flush=True)
            passed, failed = passed + is_good, failed + (not is_good)
    print(f"{passed} passed, {failed} failed, {skipped} skipped")
    return 1 if failed else 0


if __name__ == "__main__":
    sys.exit(main())

#!/usr/bin/env python3
"""The page in a headless Chromium: what it says of hostile and honest files, and how it bears them.

    tests/page/run.py [--module STORKLOCKER.wasm] [--pictures FOLDER]

The page is made from its parts here, with the module of release/ or the one that --module names.
With --pictures, its screenshots are kept; docs/page.png is one. By node, what it says of names is
compared with what the package says, and what it finds in damaged containers with what readers get
to. The last line counts; what isn't installed is skipped.
"""

from __future__ import annotations

import argparse
import re
import subprocess
import sys
import tempfile
import traceback
from pathlib import Path
from typing import Callable, Dict, List, Optional

HERE = Path(__file__).resolve().parent
ROOT = HERE.parent.parent
CHECKER = ROOT / "page" / "source" / "checker.js"
sys.dont_write_bytecode = True
sys.path.insert(0, str(HERE))

import browser  # noqa: E402
import containers  # noqa: E402
import sights  # noqa: E402
import sentences  # noqa: E402
import verdicts  # noqa: E402
import walks  # noqa: E402


def shipped(folder: Path) -> Optional[Path]:
    """The module of release/, unpacked."""
    archives = sorted((ROOT / "release").glob("libstorklocker-*-wasm.tar.gz"))
    if not archives:
        return None
    subprocess.run(["tar", "-C", folder, "-xzf", archives[0]], check=True)
    return next(folder.glob("*/storklocker.wasm"))


def usable(module: Optional[Path], skipped: List[str]) -> Optional[Path]:
    """The module, if it exports what the page calls: one of an earlier release may not."""
    if module is None:
        skipped.append("the page: release/ has no module for it")
        return None
    called = re.findall(r"exports\.(pk\w+)", CHECKER.read_text(encoding="utf-8"))
    lacks = sorted(it for it in set(called) if it.encode() not in module.read_bytes())
    if not lacks:
        return module
    skipped.append(f"the page: the module of an earlier release has no {', '.join(lacks)}")
    return None


def in_browser(page: Path, pictures: Path) -> Dict[str, str]:
    """What is wrong with each sight, by its name; an empty text if nothing is."""
    found = {}
    for name, look in sights.ALL.items():
        with tempfile.TemporaryDirectory() as folder, browser.Browser(_program()) as opened:
            found[name] = _fault(lambda: look(sights.Stage(opened, page, Path(folder), pictures)))
    return found


def _program() -> str:
    return browser.chromium() or ""


def _fault(look: Callable[[], None]) -> str:
    try:
        look()
    except (AssertionError, browser.Failed):
        return traceback.format_exc(limit=-2)
    return ""


def main() -> int:
    parser = argparse.ArgumentParser(description=(__doc__ or "").partition("\n")[0])
    parser.add_argument("--module", type=Path, help="storklocker.wasm")
    parser.add_argument("--pictures", type=Path, help="a folder for screenshots")
    asked = parser.parse_args()
    skipped: List[str] = []
    found: Dict[str, str] = {}
    with tempfile.TemporaryDirectory() as folder:
        module = usable(asked.module or shipped(Path(folder)), skipped)
        if not browser.chromium():
            skipped.append("the page in a browser: there is no chromium")
        elif module is not None:
            page = Path(folder, "storklocker.html")
            subprocess.run([sys.executable, ROOT / "page" / "make", module, page], check=True)
            found = in_browser(page, asked.pictures or Path(folder))
        if sentences.lack_of_node():
            skipped.append(f"damaged containers: {sentences.lack_of_node()}")
        elif module is not None:
            found["containers that are damaged"] = containers.fault(module)
        why = sentences.lacking()
        if not why and module is not None:
            found["verdicts"] = verdicts.fault(module)
            found["walks"] = walks.fault(module)
    if why:
        skipped.append(f"what the page says of names: {why}")
    else:
        found["sentences"] = sentences.fault()
    for name, fault in found.items():
        if fault:
            print(f"failed: {name}: {fault}")
    for reason in skipped:
        print(f"skipped: {reason}")
    failed = sum(map(bool, found.values()))
    print(f"{len(found) - failed} passed, {failed} failed, {len(skipped)} skipped")
    return 1 if failed else 0


if __name__ == "__main__":
    sys.exit(main())

"""What the page says of names, beside what the package says."""

from __future__ import annotations

import _compat_pickle as tables
import contextlib
import importlib.machinery
import importlib.util
import json
import os
import shutil
import subprocess
import sys
import tempfile
from pathlib import Path
from types import ModuleType
from typing import Any, Dict, Iterator, List, Set, Tuple

HERE = Path(__file__).resolve().parent
ROOT = HERE.parent.parent
sys.path.append(str(HERE.parent))

from languages import lack_of_node  # noqa: E402

_ENDS = ("", ".__init__", ".a", ".y.z")
_FRONTS = ("__class__.", "_a.", "x.os.system.")
_OTHERS = {("", ""), ("os", ""), ("", "os.system"), ("x", "a." * 20 + "b"), ("a." * 2000, "c"),
    ("shop.__main__", "x"), ("os\0x", "system")}

Pair = Tuple[str, str]


def lacking() -> str:
    """What is missing here to compare them, or nothing."""
    if importlib.util.find_spec("storklocker") is None:
        return "the package isn't here"
    return lack_of_node()


def maker() -> ModuleType:
    loader = importlib.machinery.SourceFileLoader("page_make", str(ROOT / "page" / "make"))
    spec = importlib.util.spec_from_loader("page_make", loader)
    assert spec is not None
    module = importlib.util.module_from_spec(spec)
    loader.exec_module(module)
    return module


def begun() -> Dict[str, Any]:
    """What the page's worker has of words and names."""
    made = maker()
    formats = {"formats": made.names.formats(), "members": made.names.members()}
    return {"costs": made.costs(), "known": made.known(), **formats}


@contextlib.contextmanager
def scripts() -> Iterator[Path]:
    """A folder with the scripts of the page, as node imports them."""
    with tempfile.TemporaryDirectory() as held:
        folder = Path(held, "scripts")
        shutil.copytree(ROOT / "page" / "source", folder)
        (folder / "package.json").write_text(json.dumps({"type": "module"}))
        yield folder


def _pairs(names: List[str]) -> Iterator[Pair]:
    for dotted in names:
        module, _, name = dotted.replace("*", "x").rpartition(".")
        for end in _ENDS:
            yield module or "a", name + end
        for front in _FRONTS:
            yield module or "a", front + name
        yield dotted, "x"
        yield "a.b", dotted


def fault() -> str:
    """Where they differ, or nothing."""
    from storklocker.scanning import dangers

    table = dangers.known()
    pairs: Set[Pair] = set(_pairs([*table.rows, *table._same, *table._under]))
    pairs |= set(tables.NAME_MAPPING) | set(dangers._listed()) | _OTHERS
    pairs |= {(module, "Thread") for module in tables.IMPORT_MAPPING}
    judged = [(*pair, dangers.judged(*pair)) for pair in sorted(pairs)]
    wanted = [[m, n, it.severity, it.why] if it else [m, n, "", ""] for m, n, it in judged]
    asked = {"known": maker().known(), "wanted": wanted}
    with scripts() as folder:
        ran = subprocess.run(
            ["node", str(HERE / "sentences.mjs"), str(folder)],
            input=json.dumps(asked), capture_output=True, text=True, env=os.environ, check=False,
        )
    return "" if ran.returncode == 0 and ran.stdout == f"{len(wanted)} agree\n" else (
        ran.stdout + ran.stderr
    )

"""What the page knows of names, and the words of the package, which needn't be built for that."""

from __future__ import annotations

import _compat_pickle as tables
import ast
import importlib
import re
import sys
from pathlib import Path
from types import ModuleType
from typing import Any, Dict, Iterator, List, Tuple

_SUBSTITUTES = "\n[substitutes]\n"
_LINE = re.compile(r'^(?:"([^"]+)"|([\w-]+)) = \[(.*)$')


_PACKAGE = Path(__file__).resolve().parent.parent / "python" / "storklocker"


def module(name: str) -> Any:
    """A module of the package, such as `scanning.words`, imported without the package around it.
    The compiled one has a stand-in: nothing that is defined when it is imported needs it.
    """
    around = "storklocker_unbuilt"
    folder = name.rpartition(".")[0]
    for made, held in ((around, _PACKAGE), (f"{around}.{folder}".rstrip("."), _PACKAGE / folder)):
        if made not in sys.modules:
            sys.modules[made] = ModuleType(made)
            sys.modules[made].__path__ = [str(held)]
    compiled = sys.modules.setdefault(f"{around}._storklocker", ModuleType("_storklocker"))
    compiled.__getattr__ = lambda name: None  # type: ignore[assignment]
    return importlib.import_module(f"{around}.{name}")


def formats() -> List[Dict[str, Any]]:
    """The formats whose readers run something else, with patterns of their bytes as text."""
    foreign = module("scanning.foreign")
    both = [*foreign.NAMED.items(), *(("", it) for it in foreign.FORMATS)]
    return [
        {
            "kind": it.kind, "finding": it.finding, "why": it.why, "isJson": it.is_json,
            "ending": ending, "front": it.front.decode("latin-1"),
            "holding": it.holding and it.holding.decode("latin-1"),
        }
        for ending, it in both
    ]


def members() -> List[Dict[str, str]]:
    """What zip files are, by a pattern of the name of a member."""
    found = module("scanning.foreign").MEMBERS.items()
    return [{"pattern": pattern, **it._asdict()} for pattern, it in found]


def substituted() -> Tuple[List[str], List[str]]:
    """The names that a guard loads through substitutes under all lists, each as `module name`, and
    the packages of which any may be.
    """
    source = _PACKAGE / "_facts.py"
    if not source.exists():
        return [" ".join(pair) for pair in _in_lists(_PACKAGE / "_lists.py")], ["numpy"]
    scope: Dict[str, Any] = {}
    exec(compile(source.read_text(encoding="utf-8"), str(source), "exec"), scope)
    names = scope["SUBSTITUTED"].items()
    return [f"{it} {name}" for it, own in names for name in own.split()], list(scope["PACKAGES"])


def _in_lists(source: Path) -> Tuple[Tuple[str, str], ...]:
    for node in ast.parse(source.read_text(encoding="utf-8")).body:
        targets = node.targets if isinstance(node, ast.Assign) else []
        if [getattr(it, "id", "") for it in targets] == ["SUBSTITUTED"]:
            value = ast.fix_missing_locations(ast.Expression(node.value))  # type: ignore
            pairs: Tuple[Tuple[str, str], ...] = eval(compile(value, str(source), "eval"), {})
            return pairs
    raise ValueError(f"{source} has no SUBSTITUTED")


def renames() -> Dict[str, Dict[str, str]]:
    """The names of Python 2 with those of Python 3, each pair as `module name`."""
    return {
        "modules": dict(tables.IMPORT_MAPPING),
        "names": {" ".join(old): " ".join(new) for old, new in tables.NAME_MAPPING.items()},
    }


def is_read(path: Path) -> bool:
    """Whether the checker reads a list file: not if a guard has to load names otherwise."""
    return _SUBSTITUTES not in path.read_text(encoding="utf-8")


def listed(path: Path) -> Iterator[Tuple[str, str]]:
    """The pairs of a list file as the package ships it, without those that a guard loads through
    substitutes. An array is in one line, or has a name a line.
    """
    imports, _, rest = path.read_text(encoding="utf-8").partition(_SUBSTITUTES)
    substituted = set(re.findall(r'(?m)^"([^"]+)" = "', rest))
    yield from (it for it in _pairs(imports) if ".".join(it) not in substituted)


def _pairs(text: str) -> Iterator[Tuple[str, str]]:
    module, is_inside = "", False
    for line in text.splitlines():
        begun = _LINE.match(line)
        if begun:
            module, is_inside = begun[1] or begun[2], True
            line = begun[3]
        if is_inside:
            for name in re.findall(r'"([^"]+)"', line):
                yield module, name
        is_inside = is_inside and not line.rstrip().endswith("]")

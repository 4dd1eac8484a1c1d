#!/usr/bin/env python3
"""Checks the imports of the Python package: each goes to a lower layer or within its own.

A layer knows those that stand before it in `LAYERS`. An import upward, a cycle of modules, a name
with an underscore that another module uses, and an import within a function that doesn't say why it
isn't at the top, is each a failure. What the C module imports counts too. Imports for annotations
alone make no cycle, and may name what is above. The last line counts.
"""

import argparse
import ast
import fnmatch
import re
import sys
from pathlib import Path
from typing import Dict, Iterator, List, NamedTuple, Set, Tuple

ROOT = Path(__file__).resolve().parent.parent
PACKAGE = ROOT / "python" / "storklocker"
C_MODULE = "_storklocker"
LAYERS: Dict[str, str] = {
    "verdict": "_answers _reasons",
    "C": "_storklocker",
    "base": """
        _limits _names _pairs _objects _cost_words _facts _waiting _plain classes""",
    "findings": "scanning.severity scanning.words scanning.report",
    "formats": """
        scanning.budget scanning.source scanning.places scanning.marks scanning.spelled
        scanning.following scanning.joblib_types scanning.joblib_cutting scanning.patterns
        scanning.batches scanning.value_letters scanning.zip_layout scanning.tar_headers
        scanning.sqlite_pages scanning.sqlite_values scanning.hdf5_rows
        scanning.hdf5_indexes scanning.hdf5_elsewhere scanning.archives scanning.unpacking
        scanning.recognized scanning.foreign scanning.checkpoint_places""",
    "substitutes": """
        _substitute _items _attributes _library _weighing _versions _table _reader
        _checkpoints _exceptions _types _arrays _random _builtins _calls _collections _of_*
        _compiled _states _substituted _substitutes _uses _judging substitutes""",
    "allow": """
        _lists _list_files _missing _shipped _meant _nodes _places _sections _old_lines
        _writing lists""",
    "checking": "_checking _imports _hints",
    "catalogue": "scanning.known scanning.dangers _purposes _name_hints",
    "follow": """
        scanning.names scanning.lenient scanning.valued scanning.calls scanning.members
        scanning.reaching scanning.trails""",
    "guard": """
        _guard _rules _telling _refusal _reading _walking _unpickler _reloading _learning
        _unjudged _loading metrics telemetry""",
    "adapters": "contrib",
    "everywhere": "everywhere",
    "scan": "scanning",
    "explaining": "explaining",
    "program": "scanning.program",
    "judge": "judge",
    "serving": "serving",
    "cli": """
        scanning.command scanning.options scanning.lists scanning.configuring
        scanning.learning scanning.showing pages __main__""",
    "root": ".",
}
"""From low to high: the modules and the folders of each, as patterns."""
GUARDLESS = {"formats", "scan"}
"""The layers that don't know of guards, which are of these modules."""
GUARDS = {"guard", "adapters", "everywhere"}


class Import(NamedTuple):
    """An import of a module of the package."""

    line: int
    target: str
    names: Tuple[str, ...]
    kind: str
    """`top`, `late` within a function, or `typing` for annotations alone."""


class Module:
    """A module: what it imports, and the private names that its classes have and that it uses."""

    def __init__(self, name: str, path: Path, modules: Set[str]) -> None:
        self.name, self.path, self._modules = name, path, modules
        self._lines = path.read_text(encoding="utf-8").splitlines()
        self._folder = name.split(".") if name else []
        if path.name != "__init__.py":
            self._folder = self._folder[:-1]
        self.imports: List[Import] = []
        self.owned: Set[str] = set()
        self.used: List[Tuple[int, str]] = []
        self._visit(ast.parse("\n".join(self._lines)), "top")

    def _visit(self, node: ast.AST, kind: str) -> None:
        for child in ast.iter_child_nodes(node):
            inner = kind
            if isinstance(child, ast.If) and ast.dump(child.test) == _TYPING:
                inner = "typing"
            elif isinstance(child, (ast.FunctionDef, ast.AsyncFunctionDef, ast.Lambda)):
                inner = kind if kind == "typing" else "late"
            if isinstance(child, ast.ImportFrom):
                self._import(child, inner)
            elif isinstance(child, ast.ClassDef):
                self.owned.update(filter(is_private, names_in(child)))
            elif isinstance(child, ast.Attribute) and is_private(child.attr):
                if not isinstance(child.ctx, ast.Store) and not is_own(child.value):
                    self.used.append((child.lineno, child.attr))
            self._visit(child, inner)

    def _import(self, node: ast.ImportFrom, kind: str) -> None:
        words = node.module.split(".") if node.module else []
        if node.level:
            words = self._folder[: len(self._folder) - node.level + 1] + words
        elif words[:1] == ["storklocker"]:
            del words[0]
        else:
            return
        own = []
        for alias in node.names:
            inner = ".".join([*words, alias.name])
            if inner in self._modules:
                self.imports.append(Import(node.lineno, inner, (), kind))
            else:
                own.append(alias.name)
        if own:
            self.imports.append(Import(node.lineno, ".".join(words), tuple(own), kind))

    def says_why(self, line: int) -> bool:
        """Whether a comment stands behind this line, or fills the one above it."""
        return " # " in self._lines[line - 1] or self._lines[line - 2].strip().startswith("# ")


_TYPING = ast.dump(ast.parse("TYPE_CHECKING", mode="eval").body)
_OF_OTHERS = frozenset(("_asdict", "_fields", "_make", "_replace", "_load", "_values"))
"""What every named tuple has for all to use, and names of PyTorch and pandas."""


def is_private(name: str) -> bool:
    return name.startswith("_") and not name.endswith("__") and name not in _OF_OTHERS


def is_own(owner: ast.expr) -> bool:
    """Whether an attribute is that of the object or the class that the code is of."""
    if isinstance(owner, ast.Call):  # `super()`
        owner = owner.func
    return isinstance(owner, ast.Name) and owner.id in ("self", "cls", "super")


def names_in(kind: ast.ClassDef) -> Iterator[str]:
    """The names of a class: its functions, what it and its functions set, and its slots."""
    for node in ast.walk(kind):
        if isinstance(node, (ast.FunctionDef, ast.AsyncFunctionDef)):
            yield node.name
        elif isinstance(node, ast.Attribute) and isinstance(node.ctx, ast.Store):
            yield node.attr
    for child in kind.body:
        for node in ast.walk(child) if isinstance(child, (ast.Assign, ast.AnnAssign)) else ():
            if isinstance(node, ast.Name) and isinstance(node.ctx, ast.Store):
                yield node.id
            elif isinstance(node, ast.Constant) and isinstance(node.value, str):
                yield node.value  # (a slot)


def modules_of(package: Path) -> Dict[str, Module]:
    """The modules of the package, by their names without the package's."""
    paths = {}
    for path in sorted(package.rglob("*.py")):
        words = path.relative_to(package).with_suffix("").parts
        paths[".".join(words[:-1] if words[-1] == "__init__" else words)] = path
    names = {*paths, C_MODULE}
    return {name: Module(name, path, names) for name, path in paths.items()}


def imports_of_c(package: Path) -> Set[str]:
    """What the C module imports."""
    texts = [path.read_text(encoding="utf-8") for path in package.parent.glob("*.[ch]")]
    found = re.findall(r'PyImport_ImportModule\("storklocker\.([\w.]+)"\)', "\n".join(texts))
    assert found, "the C module imports nothing of the package"
    return set(found)


def layer_of(name: str) -> str:
    """The layer that a module is in."""
    parts = name.split(".")
    fronts = [".".join(parts[:count]) or "." for count in range(len(parts), 0, -1)]
    for front in fronts:
        for layer, words in LAYERS.items():
            if any(fnmatch.fnmatchcase(front, it) for it in words.split()):
                return layer
    raise LookupError(f"no layer has the module {name}")


def cycles_of(edges: Dict[str, Set[str]]) -> List[List[str]]:
    """The modules that import one another in a circle, by Tarjan's algorithm."""
    number: Dict[str, int] = {}
    low: Dict[str, int] = {}
    held: List[str] = []
    found: List[List[str]] = []

    def visit(name: str) -> None:
        number[name] = low[name] = len(number)
        held.append(name)
        for other in edges.get(name, ()):
            if other not in number:
                visit(other)
            if other in held:
                low[name] = min(low[name], low[other])
        if low[name] == number[name]:
            at = held.index(name)
            found.append(sorted(held[at:]))
            del held[at:]

    for name in edges:
        if name not in number:
            visit(name)
    return [circle for circle in found if len(circle) > 1]


def upward(modules: Dict[str, Module]) -> Iterator[str]:
    """Imports of what is above."""
    order = list(LAYERS)
    for module in modules.values():
        own = layer_of(module.name)
        for it in module.imports:
            its = layer_of(it.target)
            is_up = it.kind != "typing" and order.index(its) > order.index(own)
            if is_up or own in GUARDLESS and its in GUARDS:
                yield f"{place(module, it.line)}: {own} imports {it.target or 'the root'} of {its}"


def unexplained(modules: Dict[str, Module]) -> Iterator[str]:
    """Imports within functions that don't say why."""
    for module in modules.values():
        for it in module.imports:
            if it.kind == "late" and not module.says_why(it.line):
                yield f"{place(module, it.line)}: no comment says why {it.target} is imported late"


def intrusions(modules: Dict[str, Module]) -> Iterator[str]:
    """Private names that modules use and don't have, but another has."""
    owners: Dict[str, Set[str]] = {}
    for module in modules.values():
        for name in filter(is_private, module.owned):
            owners.setdefault(name, set()).add(module.name)
    for module in modules.values():
        for line, name in module.used:
            if name in owners and name not in module.owned:
                whose = ", ".join(sorted(owners[name])[:3])
                yield f"{place(module, line)}: {name} is private to {whose}"
        for it in module.imports:
            for name in filter(is_private, it.names):
                yield f"{place(module, it.line)}: {name} is private to {it.target}"


def place(module: Module, line: int) -> str:
    return f"{module.path.relative_to(ROOT).as_posix()}:{line}"


def main() -> int:
    parser = argparse.ArgumentParser(description=(__doc__ or "").partition("\n")[0])
    parser.add_argument("--graph", action="store_true", help="also print each import")
    options = parser.parse_args()
    modules = modules_of(PACKAGE)
    edges: Dict[str, Set[str]] = {}
    edges[C_MODULE] = imports_of_c(PACKAGE)
    for module in modules.values():
        edges[module.name] = {it.target for it in module.imports if it.kind != "typing"}
    if options.graph:
        for name in sorted(edges):
            print(f"{name or '.'}: {' '.join(sorted(it or '.' for it in edges[name]))}")
    faults = [*upward(modules), *unexplained(modules), *intrusions(modules)]
    for circle in cycles_of(edges):
        faults.append(f"a circle of imports: {' '.join(circle)}")
    for fault in faults:
        print(f"failed: {fault}")
    print(f"{len(modules)} passed, {len(faults)} failed")
    return bool(faults)


if __name__ == "__main__":
    sys.exit(main())

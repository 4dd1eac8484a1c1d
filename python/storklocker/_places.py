"""Where a text is no list file, and what to write instead. Imported when a list file has a fault.

The fault is the checker's. This module only looks for its place: if it finds none, the fault is
told without one.
"""

from __future__ import annotations

from typing import Any, Dict, List, Optional, Tuple

from ._limits import FURTHEST, MOST_SAID
from ._nodes import Node, Place, Reader, Stop, Text, short, shown

_LIMITS = (
    *("clash", "counted", "depth", "large", "levels", "memo", "memory", "numbers", "passed"),
    *("stack", "values", "weight", "work"),
)
_TABLES = ("limits", "rules", "substitutes")
_SUBSTITUTE = '"builtins.getattr" = "members of project.models.Color"'


def place_of(text: bytes, fault: str) -> Place:
    """The place of a fault in a list file."""
    try:
        words = text.decode("utf-8")
    except UnicodeDecodeError as error:
        return Place(text.count(b"\n", 0, error.start) + 1, "write the file in UTF-8")
    reader = Reader(words)
    try:
        top = reader.document()
    except Stop as stop:
        return stop.place if fault == "Syntax" else Place(0, "")
    except RecursionError:
        return Place(0, "")
    return _FINDERS[fault](top) if fault in _FINDERS else Place(0, "")


def line_of(text: bytes, table: str, key: str) -> int:
    """The line of a key of a table in a list file that has no fault, or 0."""
    try:
        node = Reader(text.decode("utf-8")).document().get(table)
    except (Stop, RecursionError):
        return 0
    is_table = node is not None and isinstance(node.value, dict)
    inside: Optional[Node] = node.value.get(key) if node and is_table else None
    return inside.line if inside else 0


def _is_integer(value: Any) -> bool:
    return isinstance(value, int) and not isinstance(value, bool)


def _version(top: Dict[str, Node]) -> Place:
    node = top.get("version")
    if node is not None:
        return Place(node.line, "write version = 2")
    for name, table in top.items():
        inside = table.value.get("version") if isinstance(table.value, dict) else None
        if inside is not None:
            return Place(inside.line, f"put version = 2 before [{shown(name)}]")
    return Place(1, "begin with version = 2")


def _top_key(top: Dict[str, Node]) -> Place:
    for key, node in top.items():
        if key in _TABLES and top["version"].value == 1:
            return Place(node.line, f"{key} need version = 2, in line {top['version'].line}")
        if key in ("version", "imports", *_TABLES):
            continue
        if key == "build":
            return Place(node.line, "put build below [rules]")
        if key in _LIMITS:
            return Place(node.line, f"put {key} below [limits]")
        if isinstance(node.value, list):
            return Place(node.line, f"put {shown(key)} below [imports]")
        return Place(node.line, f"{shown(key)} isn't one of version, imports, {', '.join(_TABLES)}")
    return Place(0, "")


def _imports(top: Dict[str, Node]) -> Place:
    node = top.get("imports")
    if node is None:
        return Place(0, "add [imports], and below it the modules")
    return Place(node.line, 'write [imports], and below it module = ["name"]')


def _modules(top: Dict[str, Node]) -> List[Tuple[str, Node]]:
    """The modules, in the order of their bytes."""
    return sorted(top["imports"].value.items(), key=lambda item: item[0].encode())


def _module(top: Dict[str, Node]) -> Place:
    for module, node in _modules(top):
        if not module:
            return Place(node.line, "a module needs a name")
        if isinstance(node.value, dict):
            path, inner = _path(module, node)
            return Place(inner.line, f'quote a module with dots: "{short(path)}" = [..]')
        if isinstance(node.value, Text):
            name = short(node.value)
            return Place(node.line, f'write an array: {shown(module)} = ["{name}"]')
        if not isinstance(node.value, list):
            return Place(node.line, f'write an array of texts: {shown(module)} = ["name"]')
    return Place(0, "")


def _path(front: str, node: Node) -> Tuple[str, Node]:
    """The keys down to the first value that is no table, joined by dots."""
    while isinstance(node.value, dict) and node.value:
        key, node = next(iter(node.value.items()))
        front += f".{key}"
    return front, node


def _name(top: Dict[str, Node]) -> Place:
    for module, node in _modules(top):
        for name in node.value if isinstance(node.value, list) else ():
            if not isinstance(name, Text) or not name:
                what = "a text in quotes, and not empty"
                return Place(node.line, f"each name of {shown(module)} must be {what}")
    return Place(0, "")


def _limits(top: Dict[str, Node]) -> Place:
    return Place(top["limits"].line, "write [limits], and below it the limits")


def _limit_key(top: Dict[str, Node]) -> Place:
    for key, node in top["limits"].value.items():
        if key not in _LIMITS:
            return Place(node.line, f"{shown(key)} isn't one of the limits {', '.join(_LIMITS)}")
    return Place(0, "")


def _limit(top: Dict[str, Node]) -> Place:
    limits: Dict[str, Node] = top["limits"].value
    large = limits.get("large")
    is_large = large is not None and large.value == "true"
    for key, node in sorted(limits.items()):
        most = _greatest(key, is_large)
        if key == "large" and not is_large:
            return Place(node.line, "write large = true, or leave it out")
        if key != "large" and not _is_limit(key, node.value, most):
            more = "; large = true permits 4,294,967,295" if _is_raised(key, node, large) else ""
            more += f", or {MOST_SAID[key]:,} for none" if key in FURTHEST else ""
            return Place(node.line, f"{key} must be an integer from 0 to {most:,}{more}")
    return Place(0, "")


def _is_limit(key: str, value: Any, most: int) -> bool:
    is_none = key in FURTHEST and value == MOST_SAID[key]
    return _is_integer(value) and (0 <= value <= most or is_none)


def _greatest(key: str, is_large: bool) -> int:
    if key in FURTHEST:
        return FURTHEST[key] - 1
    if key in ("counted", "stack", "memo") and is_large or key == "numbers":
        return 4_294_967_295
    if key in MOST_SAID:
        return MOST_SAID[key]
    usual = {"counted": 16_777_216, "passed": 1_099_511_627_776, "depth": 100}
    return usual.get(key, 1_000_000)


def _is_raised(key: str, node: Node, large: Optional[Node]) -> bool:
    """Whether a limit for large data would do."""
    is_raised = key in ("counted", "stack", "memo") and large is None
    return is_raised and _is_integer(node.value) and node.value > 0


def _rules(top: Dict[str, Node]) -> Place:
    return Place(top["rules"].line, 'write [rules], and below it build = "made"')


def _rule_key(top: Dict[str, Node]) -> Place:
    for key, node in top["rules"].value.items():
        if key != "build":
            return Place(node.line, f"{shown(key)} isn't a rule; build is")
    return Place(0, "")


def _rule(top: Dict[str, Node]) -> Place:
    return Place(top["rules"].value["build"].line, 'write build = "made", or build = "any"')


def _substitutes(top: Dict[str, Node]) -> Place:
    return Place(top["substitutes"].line, f"write [substitutes], and below it {_SUBSTITUTE}")


def _substitute(top: Dict[str, Node]) -> Place:
    for key, node in sorted(top["substitutes"].value.items()):
        if not key or not isinstance(node.value, Text):
            return Place(node.line, f"write a name and its substitute, as {_SUBSTITUTE}")
    return Place(0, "")


_FINDERS = {
    "Shape(Version)": _version,
    "Version": _version,
    "Shape(TopKey)": _top_key,
    "Shape(Imports)": _imports,
    "Shape(Module)": _module,
    "Shape(Name)": _name,
    "Shape(Limits)": _limits,
    "Shape(LimitKey)": _limit_key,
    "Shape(Limit)": _limit,
    "Shape(Rules)": _rules,
    "Shape(RuleKey)": _rule_key,
    "Shape(Rule)": _rule,
    "Shape(Substitutes)": _substitutes,
    "Shape(Substitute)": _substitute,
}

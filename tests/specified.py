"""Compares the specified names with the sources of the crates, and both with docs/DECISIONS.md.

specified.txt has the names, a line each. Each that differs stands in bold in an entry under "Calls
and types", and no other does. The page's other entries have examples, which run as all examples do,
or counts.
"""

import re
from typing import Callable, Dict, Iterator, List, Set, Tuple

import rust_items
from papers import Fault, text_of
from rust_items import Place

TABLE, PAGE = "tests/specified.txt", "docs/DECISIONS.md"
NAMES = "Calls and types"


def listed() -> Iterator[Tuple[str, str, str, str]]:
    """Each line of the table: its kind, crate, path in the crate, and form."""
    for line in text_of(TABLE).splitlines():
        found = re.fullmatch(r"(\w+) (\w+)::([\w:]*\w)(.*)", line)
        if found:
            yield found[1], found[2], found[3], found[4].lstrip(": ")


def cases_in(place: Place, kind: str, form: str) -> str:
    """The cases of an enum or the fields of a struct, or their number if the form has that."""
    found = rust_items.members(place, kind)
    if not found:
        return "nothing" if found is None else ""
    return f"{{ {len(found) if re.search('{ [0-9]', form) else ', '.join(found)} }}"


def form_in(kind: str, place: Place, member: str, form: str) -> str:
    """What a crate has in place of a line's form."""
    if kind == "fn":
        found = rust_items.method(place, member) if member else rust_items.function(place)
        return found or "nothing"
    if kind in ("enum", "struct"):
        return cases_in(place, kind, form)
    if kind == "derive":
        return form if rust_items.derives(place, form) else "nothing"
    if kind == "const":
        return form if rust_items.has_constant(place, member, form) else "nothing"
    lists: Dict[str, Callable[[Place], List[str]]] = {
        "parameters": rust_items.parameters,
        "methods": rust_items.methods,
        "fields": rust_items.fields,
    }
    return f"{{ {', '.join(lists[kind](place))} }}"


def differs(kind: str, crate: str, path: str, form: str) -> bool:
    name, _, member = path.partition("::")
    if name == "laws":
        return f"pub fn {member}()" not in text_of(f"crates/{crate}/src/laws.rt")
    place = rust_items.place_of(crate, name)
    return place is None or form_in(kind, place, member, form) != form


def told() -> Set[str]:
    """The names that have an entry: those in bold."""
    section = text_of(PAGE).split(f"## {NAMES}\n")[1].split("\n## ")[0]
    bold = re.findall(r"(?s)\*\*(.*?)\*\*", section)
    return set(re.findall(r"`(pk\w+::[\w:]+)`", " ".join(bold)))


def wrong_names() -> Iterator[Fault]:
    """Names that differ and have no entry, and entries for names that don't differ. The entry of a
    type is that of its methods too.
    """
    found = {f"{line[1]}::{line[2]}" for line in listed() if differs(*line)}
    for name in sorted(found):
        if not {name, name.rpartition("::")[0]} & told():
            yield Fault(PAGE, 1, f"{name} differs and has no entry")
    for name in sorted(told()):
        if not any(f"{it}::".startswith(f"{name}::") for it in found):
            yield Fault(PAGE, 1, f"{name} has an entry and doesn't differ")

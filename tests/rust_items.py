"""The public items of the crates, as their sources declare them, without lifetimes and allocators.

An item is found as a caller finds it: by the `pub use` of the crate that it is asked of.
"""

import re
from functools import lru_cache
from typing import Iterator, List, NamedTuple, Optional, Tuple

from papers import ROOT, text_of

# What stands between a signature and its body.
CLAUSES = r"\s(?:requires|ensures|where|ghost)\b"


class Place(NamedTuple):
    crate: str
    name: str
    # How the declaring crate writes a type for which the name stands, if not so.
    written: str = ""


@lru_cache(maxsize=None)
def own_crates() -> Tuple[str, ...]:
    return tuple(re.findall(r"(?m)^(\w+).*?:", text_of("crates.txt")))


@lru_cache(maxsize=None)
def sources(crate: str) -> str:
    """All the sources of a crate, without comments."""
    files = sorted((ROOT / "crates" / crate / "src").rglob("*.rt"))
    texts = (path.read_text(encoding="utf-8") for path in files)
    return re.sub(r"(?m)^\s*//.*$", "", "\n".join(texts))


@lru_cache(maxsize=None)
def root_of(crate: str) -> str:
    return text_of(f"crates/{crate}/src/lib.rt")


def place_of(crate: str, name: str) -> Optional[Place]:
    """The crate that declares what this crate's root offers under a name."""
    if not (ROOT / "crates" / crate / "src/lib.rt").exists():
        return None
    for path, names in re.findall(r"pub use ([\w:]+?)::(\w+|\{[^}]*\});", root_of(crate)):
        if name in re.findall(r"\w+", names):
            first = path.split("::")[0]
            return place_of(first, name) if first in own_crates() else Place(crate, name)
    found = re.search(rf"pub type {name} = (\w+)::(\w+)<\w+::(\w+)>;", root_of(crate))
    return Place(found[1], found[2], f"{found[2]}<{found[3]}>") if found else None


def parts(text: str) -> List[str]:
    """What stands between the outermost commas."""
    found, depth = [""], 0
    for sign in re.sub(r"->", "→", text):
        depth += (sign in "([{<") - (sign in ")]}>")
        if sign == "," and not depth:
            found.append("")
        else:
            found[-1] += sign
    return [part.strip() for part in found if part.strip()]


def plain(kind: str) -> str:
    """A type without lifetimes."""
    return re.sub(r"<>", "", re.sub(r"'\w+(?:,\s*|\s*)", "", " ".join(kind.split())))


def typed(field: str) -> str:
    """A field or a parameter with its type."""
    name, _, kind = field.rpartition("pub ")[2].partition(":")
    return f"{name.strip()}: {plain(kind.strip())}"


def inside(text: str, at: int) -> str:
    """What stands in the brackets that begin at a place."""
    depth = 0
    for end in range(at, len(text)):
        depth += (text[end] in "([{") - (text[end] in ")]}")
        if not depth:
            return text[at + 1 : end]
    raise ValueError(f"no end of {text[at:at + 60]!r}")


def declared(place: Place, word: str) -> Optional[Tuple[str, int]]:
    """The sources, and where a declaration of this kind ends with its name."""
    text = sources(place.crate)
    found = re.search(rf"(?m)^\s*pub {word} {place.name}\b", text)
    return (text, found.end()) if found else None


def signature_at(text: str, at: int) -> str:
    """The types of a function's parameters and of its result."""
    opening = text.index("(", at)
    listed = inside(text, opening)
    end = opening + len(listed) + 2
    tail = re.split(CLAUSES + r"|[{;]", text[end:], maxsplit=1)[0]
    kinds = []
    for parameter in parts(listed):
        kind = parameter if parameter.endswith("self") else parameter.partition(":")[2]
        kinds.append(plain(kind.strip()))
    result = plain(tail.replace("->", "").strip())
    taken = ", ".join(kind for kind in kinds if kind != "Global")
    return f"({taken}) -> {result}" if result else f"({taken})"


def blocks_of(place: Place) -> Iterator[str]:
    """The bodies of a type's `impl`s, or of a trait."""
    text = sources(place.crate)
    header = rf"(?m)^(?:impl\b[^{{;]*?|pub trait )\b{place.name}\b[^{{;]*\{{"
    for found in re.finditer(header, text):
        yield inside(text, found.end() - 1)


def method(place: Place, name: str) -> Optional[str]:
    """The signature of a method."""
    for body in blocks_of(place):
        found = re.search(rf"(?m)^\s*(?:pub )?fn {name}\b", body)
        if found:
            signature = signature_at(body, found.end())
            return signature.replace(place.written or place.name, place.name)
    return None


def function(place: Place) -> Optional[str]:
    found = declared(place, "fn")
    return signature_at(*found) if found else None


def shape(variant: str) -> str:
    """A case of an enum with what it carries."""
    name = re.match(r"\w+", variant)
    if not name:
        raise ValueError(variant)
    rest = variant[name.end() :].strip()
    if rest.startswith("{"):
        return f"{name[0]}{{{', '.join(map(typed, parts(rest[1:-1])))}}}"
    kinds = ", ".join(plain(kind) for kind in parts(rest[1:-1])) if rest else ""
    return f"{name[0]}({kinds})" if kinds else name[0]


def members(place: Place, word: str) -> Optional[List[str]]:
    """The cases of an enum, or the fields of a struct that all can see."""
    found = declared(place, word)
    if not found:
        return None
    text, at = found
    opening = re.search(r"[{;(]", text[at:])
    if not opening or opening[0] != "{":
        return []
    body = re.sub(r"#\[[^\]]*\]", "", inside(text, at + opening.start()))
    if word == "enum":
        return [shape(part) for part in parts(body)]
    return [typed(part) for part in parts(body) if part.startswith("pub ")]


def derives(place: Place, name: str) -> bool:
    """Whether a type derives a trait, or has an `impl` of it."""
    text = sources(place.crate)
    for attribute in re.finditer(r"#\[derive\(([^)]*)\)\]\s*pub (?:enum|struct) (\w+)", text):
        if attribute[2] == place.name and name in parts(attribute[1]):
            return True
    return bool(re.search(rf"(?m)^impl\b[^{{;]*\b{name} for {place.name}\b", text))


def parameters(place: Place) -> List[str]:
    """The parameters of a type, but for lifetimes."""
    for word in ("struct", "enum"):
        found = declared(place, word)
        if found:
            text, at = found
            listed = re.match(r"<([^{;(]*)>", text[at:])
            return [name for name in map(plain, parts(listed[1]) if listed else []) if name]
    return []


def methods(place: Place) -> List[str]:
    """The names of a trait's methods."""
    found = declared(place, "trait")
    body = inside(found[0], found[0].index("{", found[1])) if found else ""
    return re.findall(r"(?m)^    fn (\w+)", body)


def fields(place: Place) -> List[str]:
    """The names of a struct's fields, seen or not."""
    found = declared(place, "struct")
    body = inside(found[0], found[0].index("{", found[1])) if found else ""
    return re.findall(r"(?m)^\s*(?:pub )?(\w+):", body)


def has_constant(place: Place, name: str, kind: str) -> bool:
    return any(f"pub const {name}: {kind} =" in body for body in blocks_of(place))

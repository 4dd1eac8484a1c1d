"""What the package ships of the catalogue, each file as a text."""

import textwrap
from pathlib import Path
from typing import Dict, Iterable, Iterator, List, Tuple

import rows as catalogue
from rows import HERE, Row
from storklocker import AllowList, Guard, lists, substitutes

PACKAGE = HERE.parent / "storklocker"
LIBRARIES = ("python", "numpy", "pandas", "joblib", "sklearn", "torch")
"""The libraries that are walked, in the order of the table."""
_MADE = "Made by python/catalogue/make. Don't edit it."
_BY = ("read", "run", "derived")
Rows = Iterable[Row]


def table(rows: Rows) -> str:
    """The table of the scan."""
    walked = ((HERE / "walked" / f"{it}.txt").read_text(encoding="utf-8") for it in LIBRARIES)
    return front(rows) + "".join(walked)


def front(rows: Rows) -> str:
    """What the table has of the rows, before what the walk has found."""
    held, known = list(rows), catalogue.words()
    lines = [f"# {_MADE}", "[same]"]
    lines += [f"{it.name[:-2]} {it.same}" for it in held if it.name.endswith(".*") and it.same]
    for word, (severity, why) in known.items():
        its = [it for it in held if it.does == word]
        if severity == "danger":
            lines += [f"[danger] {why}", *(line for it in its for line in _with_example(it))]
        elif severity == "warning":
            lines += [f"[warning] {why}", *_wrapped(its)]
    for mark, answer in (("text", "text"), ("enum", "member")):
        lines += [f"[{mark}]", *_wrapped(it for it in held if it.answers == answer)]
    harmless = [it for it in held if it.does and known[it.does].severity == "harmless"]
    for how in _BY:
        lines += [f"[harmless] {how}", *_wrapped(it for it in harmless if it.by == how)]
    return "".join(f"{line}\n" for line in lines)


def _with_example(row: Row) -> List[str]:
    line = f"{row.name}  {row.example}".rstrip()
    if len(line) <= 100:
        return [line]
    wrapped = textwrap.wrap(row.example, 96, break_long_words=False, break_on_hyphens=False)
    return [row.name, *(f"    {it}" for it in wrapped)]


def _wrapped(rows: Rows) -> List[str]:
    return textwrap.wrap(" ".join(it.name for it in rows), 100, break_long_words=False,
                         break_on_hyphens=False)


def word_of(name: str) -> str:
    """What rows call a list."""
    return dict(zip(lists.__all__, lists.words()))[name].lstrip("@")


def listed(rows: Rows, name: str) -> AllowList:
    """A ready-made list: its names, also as protocols 0 to 2 spell them."""
    word = word_of(name)
    its = [it for it in rows if word in it.lists.split(",")]
    said = {pair: substitutes.getattr(dict.fromkeys(it.members.split()))
            for it in its if it.members for pair in it.spellings}
    made = AllowList({pair for it in its for pair in it.spellings}, substitutes=said)
    Guard(made)  # (refuses what permits everything)
    return made


def purposes(rows: Rows) -> str:
    """What names are for, by the front that they begin with."""
    head = f"""\
# What names of the ready-made lists are for, by the front that they begin with: of several the
# longest counts. A refusal of one says "It makes", or another verb, and these words.
# {_MADE}
"""
    fronts = ((it.name[:-2] if it.name.endswith(".*") else it.name, it.purpose) for it in rows)
    return head + "".join(f"{front}  {words}\n" for front, words in sorted(fronts) if words)


def facts(rows: Rows) -> str:
    """The module with what a guard asks of names."""
    held = list(rows)
    whole = [it for it in held if it.substitute == "any"]
    named = [it for it in held if it.substitute not in ("", "any")]
    packages = [it.name[:-2] for it in whole]
    single = [it for it in named if it.name.partition(".")[0] not in packages]
    values = [it.name[:-2] for it in held if it.permits == "values"]
    return "".join((
        f'"""What a guard needs to know of names. {_MADE}"""\n\nimport sys\n\n',
        _table("EVERYTHING", (it for it in held if it.permits == "everything")),
        '"""Names that permit everything, or call any listed name as no pickle can."""\n',
        f"VALUES = {tuple(values)!r}\n".replace("'", '"'),
        '"""Packages that make functions and classes of what a pickle holds."""\n',
        _table("SUBSTITUTED", single),
        '"""Names that are loaded through substitutes, of modules of which few are."""\n',
        "PACKAGES = (\n", *(f'    "{it}",\n' for it in packages), ")\n",
        '"""Packages of which any name may be."""\n',
    ))


def _table(name: str, rows: Rows) -> str:
    modules: Dict[Tuple[str, str], List[str]] = {}
    for row in rows:
        modules.setdefault((row.pair[0], row.before), []).append(row.pair[1])
    lines = [f"{name} = {{\n"]
    for (module, before), names in modules.items():
        pieces = textwrap.wrap(" ".join(names), 80, break_on_hyphens=False)
        if before:
            version = ", ".join(before.split("."))
            lines.append(f'    "{module}": "{" ".join(names)}" if sys.version_info < ({version})'
                         ' else "",\n')
        elif len(f'    "{module}": "{pieces[0]}",') <= 100 and len(pieces) == 1:
            lines.append(f'    "{module}": "{pieces[0]}",\n')
        else:
            lines.append(f'    "{module}":\n')
            lines += [f'        "{" " * (at > 0)}{it}"\n' for at, it in enumerate(pieces)]
            lines[-1] = lines[-1].rstrip("\n") + ",\n"
    return "".join((*lines, "}\n"))


def texts() -> Iterator[Tuple[Path, str]]:
    """Each shipped file, and its text."""
    held = list(catalogue.rows().values())
    yield PACKAGE / "scanning" / "known.txt", table(held)
    yield PACKAGE / "lists" / "purposes.txt", purposes(held)
    yield PACKAGE / "_facts.py", facts(held)
    above = catalogue.heads()
    for name in lists.__all__:
        yield lists.file_of(name), above[name] + listed(held, name).to_text()

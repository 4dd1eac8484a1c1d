"""An edit: a file that names a function and what it changes in the files of its crate."""
import itertools
import pathlib
import re
from typing import Dict, List, NamedTuple, Sequence

ROOT = pathlib.Path(__file__).resolve().parent.parent
FUNCTION = re.compile(r"\s*(?:pub(?:\([a-z]+\))? )?(?:(?:const|unsafe|extern \"C\") )*fn (\w+)")
CLAUSE = re.compile(r"\s*(?:ensures|requires|ghost|decreases)\b")


class Edit(NamedTuple):
    crate: str
    file: pathlib.Path
    # The name of the function whose contract it breaks, or the end of it, as `rt check` prints it.
    function: str
    # The files that it changes, by their paths in the crate.
    texts: Dict[str, str]
    # Why it can't be applied, or nothing.
    fault: str

    def name(self) -> str:
        return str(self.file.relative_to(ROOT))


def read_edit(file: pathlib.Path) -> Edit:
    crate, path, old, function, fault = file.parent.parent, "", "", "", ""
    texts: Dict[str, str] = {}
    changes = 0
    for line in file.read_text(encoding="utf-8").splitlines():
        kind, _, text = line.partition(" ")
        if kind == "function:":
            function = text
        elif kind == "file:":
            path = text.strip()
            if path not in texts:
                source = crate / path
                texts[path] = source.read_text(encoding="utf-8") if source.is_file() else ""
        elif kind == "old:":
            old = text
        elif kind == "new:" and path and old:
            found = texts[path].count(old)
            if found != 1:
                fault = f"its text is {found} times in {path}, and not once: {old.strip()}"
            texts[path] = texts[path].replace(old, text)
            changes += old != text
    if not changes:
        fault = "it changes nothing"
    elif not function:
        fault = fault or "it names no function"
    return Edit(crate.name, file, function, texts, fault)


def edits_in(folder: str) -> List[Edit]:
    return [read_edit(it) for it in sorted(ROOT.glob(f"crates/*/{folder}/*.edit"))]


def changed(edit: Edit, path: str) -> Dict[int, str]:
    """The lines that an edit changes in a file of its crate, by their numbers."""
    old = (ROOT / "crates" / edit.crate / path).read_text(encoding="utf-8").splitlines()
    return {
        number: line
        for number, line in enumerate(edit.texts[path].splitlines())
        if line != old[number]
    }


def is_body(edit: Edit) -> bool:
    """Whether it changes nothing but lines in the body of its function, which has a proof of its
    own: those of a cycle of calls share one.
    """
    if edit.fault or len(edit.texts) != 1 or not next(iter(edit.texts)).startswith("src/"):
        return False
    path = next(iter(edit.texts))
    lines = (ROOT / "crates" / edit.crate / path).read_text(encoding="utf-8").splitlines()
    name = edit.function.rpartition("::")[2]
    return all(function_around(lines, number) == name for number in changed(edit, path))


def function_around(lines: Sequence[str], number: int) -> str:
    """The name of the function whose body has this line; nothing if it is in a cycle of calls."""
    begin = next((it for it in range(number, -1, -1) if FUNCTION.match(lines[it])), number)
    head = lines[begin:number]
    has_clauses = any(CLAUSE.match(line) for line in head)
    ends = [line.strip() == "{" if has_clauses else line.endswith("{") for line in head]
    found = FUNCTION.match(lines[begin])
    above = itertools.takewhile(lambda line: line.lstrip()[:2] in ("#[", "//"), lines[:begin][::-1])
    is_in_cycle = any(line.lstrip().startswith("#[cycle(") for line in above)
    return found[1] if found and any(ends) and not is_in_cycle else ""

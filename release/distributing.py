"""What the wheels and the source distribution of the Python package have in common."""

import pathlib
import tomllib
from typing import Any, Dict

TOP = pathlib.Path(__file__).resolve().parent.parent
PYTHON = TOP / "python"
VERSION = (TOP / "VERSION").read_text().strip()
KINDS = {".py", ".pyi", ".h", ".toml", ".txt", ".typed"}
SHARED = {
    "man/man1/storklocker.1": "man",
    "bash-completion/completions/storklocker": "bash",
    "zsh/site-functions/_storklocker": "zsh",
    "fish/vendor_completions.d/storklocker.fish": "fish",
}
"""Where the pages of `storklocker.pages` belong, below `share`."""


def described() -> Dict[str, Any]:
    """Returns the table of the project in pyproject.toml."""
    with (PYTHON / "pyproject.toml").open("rb") as opened:
        project: Dict[str, Any] = tomllib.load(opened)["project"]
    return project


def licences() -> Dict[str, bytes]:
    """Returns the licences by name."""
    return {it.name: it.read_bytes() for it in sorted(TOP.glob("LICENSE*"))}


def package_files() -> Dict[str, bytes]:
    """Returns the files of the package, without what is built, by their places in it."""
    package = PYTHON / "storklocker"
    return {
        it.relative_to(PYTHON).as_posix(): it.read_bytes()
        for it in package.rglob("*")
        if it.is_file() and it.suffix in KINDS
    }


def pages_in(folder: pathlib.Path) -> Dict[str, bytes]:
    """Returns the pages that `release/pages` has written to a folder, by their places below
    `share`.
    """
    return {place: (folder / page).read_bytes() for place, page in SHARED.items()}


def metadata() -> str:
    """Returns the text of METADATA and of PKG-INFO."""
    project = described()
    lines = [
        "Metadata-Version: 2.1",
        f"Name: {project['name']}",
        f"Version: {VERSION}",
        f"Summary: {project['description']}",
        *[f"Author: {it['name']}" for it in project["authors"]],
        f"Keywords: {','.join(project['keywords'])}",
        f"License: {project['license']['text']}",
        *[f"License-File: {it}" for it in licences()],
        *[f"Classifier: {it}" for it in project["classifiers"]],
        f"Requires-Python: {project['requires-python']}",
        "Description-Content-Type: text/markdown",
    ]
    return "\n".join(lines) + "\n\n" + (PYTHON / project["readme"]).read_text()

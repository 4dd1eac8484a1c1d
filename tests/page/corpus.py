"""Files of the package's own tests, hostile and honest ones."""

from __future__ import annotations

import contextlib
import importlib
import io
import pickle
import random
import sys
import tempfile
from pathlib import Path
from typing import Any, Dict, Iterator, List, Mapping, Optional, Tuple

ROOT = Path(__file__).resolve().parent.parent.parent
TESTS, READERS = ROOT / "python" / "tests", ROOT / "tests" / "readers"
RANDOM, VALUES = 150, 3
"""How many files of the tests of readers, and how many values of each program."""
_MODULES = (
    "test_readings", "test_joblib_files", "test_sqlite_made", "test_checkpoints", "test_foreseeing",
)


def files() -> Dict[str, bytes]:
    """Each file by its name."""
    return {
        f"{front}, {name}".replace("/", "-"): data
        for front, table in _tables() for name, data in table.items() if data is not None
    }


@contextlib.contextmanager
def _importing(folder: Path) -> Iterator[None]:
    before = sys.path[:]
    sys.path[:0] = [str(folder), str(TESTS)]
    try:
        yield
    finally:
        sys.path[:] = before


def _tables() -> Iterator[Tuple[str, Mapping[str, Optional[bytes]]]]:
    with _importing(TESTS):
        readings, joblib, sqlite, checkpoints, foreseeing = map(importlib.import_module, _MODULES)
        enums = importlib.import_module("test_enum_members")
    yield "reading", readings.HOSTILE
    yield "joblib", joblib.GOOD
    yield "hostile joblib", joblib.HOSTILE
    yield "SQLite", {name: sqlite.database(*made) for name, made in sqlite.MADE.items()}
    yield "checkpoint", checkpoints.ODD
    front = foreseeing.P
    yield "guarded", {name: front + data for name, (data, _) in foreseeing.PICKLES.items()}
    honest = foreseeing.HONEST.items()
    yield "loaded", {name: it if it[:1] == b"\x80" else front + it for name, it in honest}
    yield "getattr", enums.OTHERS


def reaching() -> Any:
    """The test of what readers reach that the checker refuses."""
    with _importing(TESTS):
        return importlib.import_module("test_reaching")


def called() -> List[bytes]:
    """Pickles that call what their own calls have made."""
    with _importing(TESTS):
        tests = importlib.import_module("test_called_answers")
    return [*tests.PICKLES.values(), *tests.NEWS.values()]


def rows() -> Dict[str, bytes]:
    """Pickles that follow one another, as one Unpickler reads them; and members of enums."""
    with _importing(TESTS):
        tests, enums = map(importlib.import_module, ("test_one_unpickler", "test_enum_members"))
    found = {f"row {name}": b"".join(parts) for name, parts in tests.ROWS.items()}
    held = [enums.Got(enums.http.HTTPStatus.OK), "a text", enums.Got(enums.signal.SIGINT)]
    for protocol in range(6):
        found[f"members {protocol}"] = pickle.dumps(held, protocol)
        found[f"row of members {protocol}"] = pickle.dumps(held, protocol) * 2
        stream = io.BytesIO()
        pickler = pickle.Pickler(stream, protocol)
        for value in ([held[1], 1], {held[1]: pickle.PickleError}, [held[1], (2, held[1])]):
            pickler.dump(value)
        found[f"stream {protocol}"] = stream.getvalue()
    return found


def read() -> Dict[str, bytes]:
    """Files that the tests of readers make: of any shape, of libraries, and of programs."""
    with _importing(READERS):
        shapes, libraries = map(importlib.import_module, ("shapes", "made_by_libraries"))
        found = dict(libraries.files())
        for number in range(RANDOM):
            found[f"random {number}"] = shapes.any_file(random.Random(f"1-{number}"))
        found.update(_kept())
    return {name.replace("/", "-"): data for name, data in found.items()}


def _kept() -> Iterator[Tuple[str, bytes]]:
    """Files in which programs keep values, most of them hostile."""
    keepers, kept = map(importlib.import_module, ("keepers", "kept"))
    for name, keeper in keepers.keepers():
        for number in () if isinstance(keeper, str) else range(VALUES):
            with tempfile.TemporaryDirectory() as held:
                with contextlib.suppress(Exception):  # (a value that it doesn't store)
                    keeper.put(Path(held), kept.value_of(1, number))
                for path in sorted(Path(held).rglob("*")):
                    if path.is_file():
                        yield f"{name}, {number}, {path.name}", path.read_bytes()

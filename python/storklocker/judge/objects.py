"""Objects that a pickle can make for an argument, most of which do harm where they are evaluated,
opened or called.
"""

from __future__ import annotations

import functools
import io
import pathlib
import types
import zipfile
from pathlib import Path
from typing import Any, Callable, Dict

from .watch import CODE, WATCH

COMMAND = b"cos\nsystem\n(Vtouch pwned\ntR."
"""A pickle that runs a command."""
_MODULE = f"{CODE}\ndef f(): pass\n"
_HEADER = b"{'descr': '|O', 'fortran_order': False, 'shape': (1,), }".ljust(117) + b"\n"


class Probe:
    """Something callable, which tells when it is called."""

    def __call__(self, *given: Any, **named: Any) -> Any:
        WATCH.note("call: it calls its argument")
        return self


def _texts() -> Dict[str, Any]:
    texts = [CODE, "__import__('os').system('touch pwned')", "evil", "evil.f", "evil:f", "evil.py",
             "evil.pkl", "evil.npy", "evil.zip", "kept", "empty", "touch pwned", "os.system",
             "file:kept", "http://127.0.0.1:9/", "{0.__class__}", "(a+)+$"]
    return {f"the text {text!r}": text for text in texts}


OBJECTS: Dict[str, Callable[[], Any]] = {
    **{word: functools.partial(str, text) for word, text in _texts().items()},
    "a pickle of a command": lambda: COMMAND,
    "bytes of a path": lambda: b"kept",
    "an object of attributes": lambda: types.SimpleNamespace(
        __annotations__={"a": CODE}, name="evil", path="kept", code=CODE),
    "a list of code": lambda: [CODE],
    "a dict of code": lambda: {CODE: CODE},
    "a dict of names": lambda: {"a": "evil.f", "__class__": Probe, "__dict__": {}},
    "a list of a pair of code": lambda: [("a", CODE)],
    "numbers": lambda: [1.0, 2.0],
    "a stream of a pickle": lambda: io.BytesIO(COMMAND),
    "a stream of code": lambda: io.StringIO(CODE),
    "a path object": lambda: pathlib.Path("kept"),
    "what reports its calls": Probe,
    "a dict of what reports its calls": lambda: {"a": Probe()},
    "the class int": lambda: int,
}
"""What makes each object, by its name."""
TELLING = ("what reports its calls", "a dict of what reports its calls", "a dict of names")
"""Those that have something callable in them, which tells when it is called."""


def fill(folder: Path) -> None:
    """Puts what an attacker may find beside the pickle into a folder."""
    (folder / "evil.py").write_text(_MODULE)
    (folder / "evil.pkl").write_bytes(COMMAND)
    (folder / "cal_housing_py3.pkz").write_bytes(COMMAND)
    (folder / "evil.npy").write_bytes(b"\x93NUMPY\x01\x00\x76\x00" + _HEADER + COMMAND)
    (folder / "evil.pth").write_text("import evil\n")
    (folder / "kept").write_text("kept")
    (folder / "empty").mkdir()
    with zipfile.ZipFile(folder / "evil.zip", "w") as archive:
        archive.writestr("inner.py", _MODULE)

"""Writes checkpoints in PyTorch's layout, without PyTorch, and crafted ones: models.py FOLDER"""

import io
import pickle
import sys
import types
import warnings
import zipfile
from collections import OrderedDict
from pathlib import Path
from typing import Any, Optional, Tuple


def named(module: str, name: str) -> Any:
    """A function that is pickled under these names."""
    made = types.FunctionType((lambda *_: None).__code__, {}, name)
    made.__module__, made.__qualname__ = module, name
    for part in (module.partition(".")[0], module):
        sys.modules.setdefault(part, types.ModuleType(part))
    setattr(sys.modules[module], name, made)
    return made


class Tensor:
    def __reduce__(self) -> Tuple[Any, ...]:
        arguments: Tuple[Any, ...] = (Storage(), 0, (2, 3), (3, 1), False, OrderedDict())
        return (named("torch._utils", "_rebuild_tensor_v2"), arguments)


class Storage:
    pass


class Pickler(pickle.Pickler):
    def persistent_id(self, thing: Any) -> Optional[Tuple[Any, ...]]:
        if isinstance(thing, Storage):
            return ("storage", named("torch", "FloatStorage"), "0", "cpu", 6)
        return None


def weights() -> bytes:
    """The pickle of a model with one tensor."""
    data = io.BytesIO()
    Pickler(data, 2).dump(OrderedDict(weight=Tensor()))
    return data.getvalue()


def archive(*members: Tuple[str, bytes], compression: int = zipfile.ZIP_STORED) -> bytes:
    """A zip file of these members; a name may appear twice."""
    data = io.BytesIO()
    with warnings.catch_warnings(), zipfile.ZipFile(data, "w", compression) as made:
        warnings.simplefilter("ignore")
        for name, content in members:
            made.writestr(name, content)
    return data.getvalue()


GOOD, EVIL = weights(), b"cos\nsystem\n(S'echo gone'\ntR."
TENSOR = ("model/data/0", bytes(24))
MODELS = {
    "model": archive(("model/data.pkl", GOOD), TENSOR),
    "evil": archive(("model/data.pkl", EVIL), TENSOR),
    "none": archive(TENSOR),
    "same-name": archive(("model/data.pkl", GOOD), TENSOR, ("model/data.pkl", EVIL)),
    "same-name-in-capitals": archive(("model/data.pkl", GOOD), TENSOR, ("model/DATA.PKL", EVIL)),
    "other-folder": archive(("model/data.pkl", GOOD), TENSOR, ("other/data.pkl", EVIL)),
    "folder-of-another": archive(("other/data/0", bytes(24)), ("model/data.pkl", GOOD)),
    "other-pickle": archive(("model/data.pkl", GOOD), ("model/constants.pkl", EVIL), TENSOR),
    "compressed": archive(("model/data.pkl", GOOD), TENSOR, compression=zipfile.ZIP_DEFLATED),
    "cut": archive(("model/data.pkl", GOOD), TENSOR)[:-30],
    "changed": archive(("model/data.pkl", GOOD), TENSOR).replace(b"weight", b"height"),
    # some readers take the pickle of the first archive, some that of the second
    "two-archives": archive(("model/data.pkl", EVIL.ljust(len(GOOD))), TENSOR)
    + archive(("model/data.pkl", GOOD), TENSOR),
    "empty": b"",
}

if __name__ == "__main__":
    for name, content in MODELS.items():
        Path(sys.argv[1], name + ".pt").write_bytes(content)

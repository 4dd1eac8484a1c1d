"""What libraries write, for lists of them: the objects of `tests/honest_objects/` whose names are
all judged. The names of others are left out, and told.
"""

import functools
import importlib
import io
import pickle
import sys
import zipfile
from pathlib import Path

import storklocker
from storklocker import _of_numpy as _of_numpys
from storklocker import _of_sklearn as _of_sklearns
from storklocker import _of_torch as _of_torchs
from storklocker import _random, lists
from storklocker._names import renamed
from storklocker._objects import found as found_object
from storklocker._table import TABLE, substitute_of
from storklocker.scanning.dangers import danger_of

sys.path += [str(Path(__file__).resolve().parents[1] / it) for it in ("tests", "catalogue")]

import honest_objects  # noqa: E402
import rows as catalogue  # noqa: E402
from shipping import word_of  # noqa: E402

CORPORA = {"NUMPY": "numpy", "PANDAS": "pandas", "TORCH_TENSORS": "torch", "TORCH_NN": "torch",
           "PACKAGES": "packages"}
"""The texts with the objects of a list that `starters.py` writes."""
PACKAGES = {
    "NUMPY": ("numpy",),
    "PANDAS": ("numpy", "pandas", "pytz", "dateutil"),
    "TORCH_TENSORS": ("torch",),
    "TORCH_NN": ("torch",),
    "PACKAGES": ("dateutil", "pytz", "requests", "networkx", "sqlalchemy", "rq"),
    "SCIKIT_LEARN": ("sklearn", "scipy", "numpy"),
}
"""The packages whose names a list has, beside those of Python's library that other lists have."""
_STANDARD = ("STANDARD_TYPES", "DATETIME", "COLLECTIONS", "DECIMAL", "PATHLIB", "UUID",
             "EXCEPTIONS", "ENUM")


def versions(name):
    """The versions of the libraries of a list that are here."""
    found = []
    for package in PACKAGES[name]:
        module = importlib.import_module(package)
        version = getattr(module, "__version__", "").split("+")[0]
        found.append(f"{package} {'.'.join(version.split('.')[:2])}")
    return ", ".join(found)


def data_of(name, value):
    """The pickles of a value."""
    for protocol in range(6):
        try:
            if not name.startswith("TORCH"):
                yield pickle.dumps(value, protocol)
                continue
            file = io.BytesIO()
            importlib.import_module("torch").save(value, file, pickle_protocol=protocol)
            with zipfile.ZipFile(file) as archive:
                yield next(archive.read(it) for it in archive.namelist() if it.endswith("data.pkl"))
        except Exception:  # (whatever a class raises whose objects have no such pickle)
            continue


def names_of(data):
    try:
        pairs = storklocker.imports(data, fix_imports=False)
    except storklocker.Refused:  # (protocol 0 has lines that are too long for its reader)
        return
    for pair in pairs:
        yield from (tuple(pair), renamed(tuple(pair)))


def is_judged(name, pair):
    """Whether it is known what a name does: nothing that wasn't judged."""
    pair = renamed(pair)
    dotted = ".".join(pair)
    if danger_of(pair) or dotted.startswith(_unlisted()):
        return False
    if word_of(name) in catalogued(dotted).lists.split(",") or substitute_of(pair) is not None:
        return True
    if pair[0].partition(".")[0] in PACKAGES[name] or catalogued(dotted).kind == "value":
        return _is_value(pair)
    return pair in _shipped()


@functools.lru_cache(maxsize=None)
def _rows():
    return catalogue.rows()


def catalogued(dotted):
    """What the catalogue knows of a name."""
    return _rows().get(dotted, catalogue.Row(dotted))


@functools.lru_cache(maxsize=None)
def _unlisted():
    """What names begin with that are in no list, whatever writes them."""
    return tuple(row.name.rstrip("*") for row in _rows().values() if row.unlisted)


def _is_value(pair):
    """Whether a name is an object that nobody can call, as a type of PyTorch's numbers."""
    return not callable(getattr(importlib.import_module(pair[0]), pair[1], print))


@functools.lru_cache(maxsize=None)
def _shipped():
    return {renamed(pair) for name in _STANDARD for pair in getattr(lists, name)}


def _is_own(name, pair):
    """Whether a list has a name itself: those of exceptions and enums are in lists of their own."""
    pair = renamed(pair)
    is_in = pair[0].partition(".")[0] in PACKAGES[name]
    others = {renamed(it) for word in ("EXCEPTIONS", "ENUM") for it in getattr(lists, word)}
    return is_in or pair in TABLE or pair not in others


def found(name):
    """The names of a list, and those left out, each with the line of an object that has it."""
    kept, left = set(later(name)), {}
    corpora = ("NUMPY", name) if name == "PANDAS" else (name,)
    for corpus in {CORPORA.get(it, "sklearn") for it in corpora}:
        for counts, line, value in honest_objects.made(corpus):
            if name == "TORCH_TENSORS" and counts:
                continue
            pairs = {pair for data in data_of(name, value) for pair in names_of(data)}
            unjudged = {pair for pair in pairs if not is_judged(name, pair)}
            left.update(dict.fromkeys(map(renamed, unjudged), line))
            if not unjudged:
                kept.update(pair for pair in pairs if _is_own(name, pair))
    return kept, left


def later(name):
    """Names of a kind of which few are made here: functions, exceptions, types, modules. Those
    that only other versions of a library write stand in the catalogue, and stay there.
    """
    made = _LATER[name]() if name in _LATER else ()
    return [pair for pair in made if renamed(pair) == pair]


def _ufuncs():
    """NumPy's universal functions, by the module that NumPy 1, 2.0 and 2.2 write."""
    import numpy

    words = {it.__name__ for it in vars(numpy).values() if type(it) is numpy.ufunc}
    for at in ("numpy.core._multiarray_umath", "numpy._core._multiarray_umath", "numpy"):
        yield from ((at, word) for word in words)


def _of_numpy():
    yield from _ufuncs()
    yield from (pair for pair in _of_numpys.TABLE)
    yield from (pair for pair in _random.TABLE)


def _of_pandas():
    import pandas

    yield from _of_numpy()
    yield from _exceptions(pandas.errors)


def _of_torch():
    import torch

    yield from (("torch", f"{word}Storage") for word in _of_torchs.STORAGES)
    yield from (("torch", str(it).rpartition(".")[2]) for it in vars(torch).values()
                if type(it) is torch.dtype)


def _of_sklearn():
    from sklearn import exceptions, feature_selection, metrics
    from sklearn.gaussian_process import kernels

    yield from _ufuncs()
    yield from (pair for pair in _of_sklearns.TABLE if found_object(*pair) is not None and
                ("dist_metrics" in pair[0] or "_tree" in pair[0] or "._loss." in pair[0]))
    yield from (pair for pair in _random.TABLE)
    yield from _exceptions(exceptions)
    for module in (kernels, metrics, feature_selection):
        for it in vars(module).values():
            module = getattr(it, "__module__", None) or ""
            if callable(it) and module.startswith("sklearn.") and is_judged(
                "SCIKIT_LEARN", (module, it.__qualname__)
            ):
                yield (module, it.__qualname__)


def _of_modules():
    from torch import nn

    yield from _of_torch()
    yield from _of_torchs.ACTIVATIONS
    for it in vars(nn).values():
        is_one = isinstance(it, type) and issubclass(it, nn.Module)
        if is_one and it.__module__.startswith("torch.nn.modules.") and "Lazy" not in it.__name__:
            yield (it.__module__, it.__qualname__)


def _of_packages():
    for name in ("requests.exceptions", "sqlalchemy.exc", "rq.exceptions", "rq.timeouts"):
        yield from _exceptions(importlib.import_module(name))


def _exceptions(module):
    for it in vars(module).values():
        is_one = isinstance(it, type) and issubclass(it, Exception)
        if is_one and it.__module__.partition(".")[0] == module.__name__.partition(".")[0]:
            yield (it.__module__, it.__qualname__)


_LATER = {"SCIKIT_LEARN": _of_sklearn, "NUMPY": _of_numpy, "PANDAS": _of_pandas,
          "TORCH_TENSORS": _of_torch,
          "TORCH_NN": _of_modules, "PACKAGES": _of_packages}

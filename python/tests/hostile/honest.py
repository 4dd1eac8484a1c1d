"""What honest programs pickle, by ready-made list, and what loads it."""

import contextlib
import functools
import io
import pickle
import sys
import zipfile
from pathlib import Path

PYTHON = Path(__file__).resolve().parents[2]
sys.path[:0] = [str(PYTHON / "lists"), str(PYTHON / "service_tests")]

sys.path[:0] = [str(PYTHON / "tests")]

import honest_objects  # noqa: E402
import of_python  # noqa: E402
import storklocker  # noqa: E402
import values  # noqa: E402
from storklocker import lists  # noqa: E402

_LARGEST = 20_000
"""The most bytes of a pickle to begin with: a larger one has the same parts more often."""


def _django():
    import of_django

    return of_django.objects()


def _celery():
    import of_celery

    return of_celery.objects()


def _states():
    import torch

    layers = [torch.nn.Linear(3, 2), torch.nn.BatchNorm1d(2), torch.nn.Embedding(4, 2)]
    kinds = (torch.bfloat16, torch.bool, torch.int16, torch.complex64)
    yield from (layer.state_dict() for layer in layers)
    plain = torch.ones(3, 2)
    yield {"plain": plain, "view": plain[1:], "fixed": torch.nn.Parameter(torch.ones(2))}
    yield [torch.ones(2).to(kind) for kind in kinds]


def _estimators():
    """One of each kind of estimator, and what values have."""
    import estimators
    from sklearn.utils import all_estimators

    for name, kind in all_estimators():
        # (another version of scikit-learn takes other arguments)
        with contextlib.suppress(TypeError, ValueError, AttributeError):
            yield next(iter(estimators.fitted(name, kind)))


_CORPORA = {"NUMPY": "numpy", "PANDAS": "pandas", "PACKAGES": "packages", "TORCH_NN": "torch",
            "TORCH_TENSORS": "torch"}
"""The texts with more objects of a list."""


def _corpus(name):
    return (value for _, _, value in honest_objects.made(_CORPORA[name]))


_MORE = {"DJANGO": _django, "CELERY": _celery, "SCIKIT_LEARN": _estimators,
         "TORCH_TENSORS": _states}


def pickles(name, is_quick=True):
    """Honest pickles under a list, each of them once; none without its library."""
    found, listed = {}, getattr(lists, name)
    more = None if is_quick and name in values.LISTS else _MORE.get(name)
    corpus = functools.partial(_corpus, name) if name in _CORPORA else None
    for make in (of_python.OBJECTS.get(name), values.LISTS.get(name), more, corpus):
        try:
            made = list(make()) if make is not None else []
        except ImportError:
            continue
        for value in made:
            for protocol in (2, 4):
                data = _dumped(name, value, protocol)
                is_short = data is not None and len(data) < _LARGEST
                if is_short and (make is not corpus or storklocker.check(data, listed)):
                    found[data] = None
    return list(found)


def _dumped(name, value, protocol):
    """The pickle of a value; None if it has none."""
    try:
        return _of_torch(value, protocol) if name in TORCH else pickle.dumps(value, protocol)
    except Exception:  # (whatever a class raises whose objects have no pickle)
        return None


TORCH = ("TORCH_TENSORS", "TORCH_NN")


def _of_torch(value, protocol):
    import torch

    file = io.BytesIO()
    torch.save(value, file, pickle_protocol=protocol)
    with zipfile.ZipFile(file) as archive:
        return archive.read(f"{archive.namelist()[0].partition('/')[0]}/data.pkl")


BUFFERS = (bytearray(b"A" * 8), b"A" * 16, memoryview(bytearray(24)), bytearray(0))
"""The buffers beside each pickle."""


def loader(name, guard):
    """What loads a pickle as those who use a list do."""
    if name not in TORCH:
        return lambda data: guard.loads(data, buffers=iter(BUFFERS * 8))
    import torch
    from storklocker.contrib.torch import load_torch

    torch.set_num_threads(1)  # (a forked process waits for those that it lacks)
    return lambda data: load_torch(_zipped(data), guard)


def _zipped(data):
    """A checkpoint with this pickle, and a few storages."""
    file = io.BytesIO()
    with zipfile.ZipFile(file, "w") as archive:
        archive.writestr("archive/data.pkl", data)
        archive.writestr("archive/version", b"3\n")
        for key in range(8):
            archive.writestr(f"archive/data/{key}", b"A" * 64)
    return file.getvalue()

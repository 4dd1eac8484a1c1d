"""Ready-made allow lists. `AllowList.shipped("torch", "pandas")` is the union of two, as is
`lists.TORCH_TENSORS | lists.PANDAS`.

    STANDARD_TYPES   values of builtins, array, decimal, fractions, ipaddress and uuid
    DATETIME         datetimes, dates, times and fixed time zones
    COLLECTIONS      the containers of collections
    EXCEPTIONS       exceptions of builtins and of modules that services use
    ENUM             members of enums of Python's library
    PATHLIB          paths
    DECIMAL, UUID    numbers of decimal, UUIDs
    DJANGO           responses, model instances and values, as Django caches them
    CELERY           signatures and exceptions, as Celery sends them
    NUMPY            arrays, scalars, types, generators and functions of NumPy
    PANDAS           frames, series, indexes, arrays, scalars and offsets of pandas
    SCIKIT_LEARN     fitted estimators of scikit-learn
    TORCH_TENSORS    checkpoints of PyTorch: states of modules, optimizers and schedulers
    TORCH_NN         whole modules of `torch.nn`
    PACKAGES         values of dateutil, pytz, requests and networkx; exceptions of SQLAlchemy, RQ

A command takes them as `@torch`, `@torch-nn`, `@sklearn`, `@standard-types`.

Each is a TOML file in this folder, which names the versions that it was written for and tested
with. A list permits what these libraries write. It doesn't cover what the objects do in use.
"""

from __future__ import annotations

from typing import List

from .._lists import AllowList, shipped_list
from .._shipped import file_of, name_of, words  # noqa: F401 (part of this module)

__all__ = [
    "CELERY",
    "COLLECTIONS",
    "DATETIME",
    "DECIMAL",
    "DJANGO",
    "ENUM",
    "EXCEPTIONS",
    "NUMPY",
    "PACKAGES",
    "PANDAS",
    "PATHLIB",
    "SCIKIT_LEARN",
    "STANDARD_TYPES",
    "TORCH_NN",
    "TORCH_TENSORS",
    "UUID",
]

CELERY: AllowList
COLLECTIONS: AllowList
DATETIME: AllowList
DECIMAL: AllowList
DJANGO: AllowList
ENUM: AllowList
EXCEPTIONS: AllowList
NUMPY: AllowList
PACKAGES: AllowList
PANDAS: AllowList
PATHLIB: AllowList
SCIKIT_LEARN: AllowList
STANDARD_TYPES: AllowList
TORCH_NN: AllowList
TORCH_TENSORS: AllowList
UUID: AllowList


def __getattr__(name: str) -> AllowList:
    """Reads a list on first use."""
    if name not in __all__:
        raise AttributeError(f"module {__name__!r} has no attribute {name!r}")
    made = shipped_list(name)
    globals()[name] = made
    return made


def __dir__() -> List[str]:
    return __all__

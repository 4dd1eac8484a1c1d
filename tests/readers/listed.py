"""The names that a file of the harness may import, and what asking for another may run."""

import importlib.util
import re

MODULE = re.compile(r"[^\W\d]\w*(\.[^\W\d]\w*)*")
"""The name of a module that Python's grammar allows."""
LISTED = frozenset((
    ("collections", "OrderedDict"),
    ("datetime", "datetime"),
    ("datetime", "date"),
    ("_codecs", "encode"),
    ("numpy.core.multiarray", "_reconstruct"),
    ("numpy._core.multiarray", "_reconstruct"),
    ("numpy.core.multiarray", "scalar"),
    ("numpy._core.multiarray", "scalar"),
    ("numpy", "ndarray"),
    ("numpy", "dtype"),
    ("joblib.numpy_pickle", "NumpyArrayWrapper"),
    ("torch._utils", "_rebuild_tensor_v2"),
    ("torch", "FloatStorage"),
    ("torch", "LongStorage"),
))


def may_run(module, name):
    """Whether asking for a name may run anything: by what it is, or by the import of its module. If
    no attribute can have such a name, only a module does that is found here.
    """
    module = module.partition("\0")[0]
    if MODULE.fullmatch(module) is None:
        return False
    return all(map(str.isidentifier, name.split("."))) or _is_here(module.partition(".")[0])


def _is_here(package):
    try:
        return importlib.util.find_spec(package) is not None
    except (ImportError, ValueError):
        return False

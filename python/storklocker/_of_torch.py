"""PyTorch: tensors lie within their storages, sparse ones are validated, and what is whole of
`torch.nn` has no hooks.
"""

from __future__ import annotations

import collections
import re
import sys
from typing import TYPE_CHECKING, Any, Dict, Iterable, Tuple

from ._answers import Misused
from ._attributes import judge_attributes
from ._calls import row, wrong
from ._substitute import Class, Substitute, Value

if TYPE_CHECKING:
    from ._reader import Reader

_MOST = 1 << 48
_DIMENSIONS = 64
_DEVICE = re.compile(r"[a-z]{2,12}(:[0-9]{1,4})?")
_PLAIN = (type(None), bool, int, float, str)


def _sizes(name: str, *given: Any) -> None:
    """Refuses what are no lengths or steps of a tensor."""
    for it in given:
        if not isinstance(it, tuple) or len(it) > _DIMENSIONS:
            raise wrong(name)
        if any(type(length) is not int or not 0 <= length < _MOST for length in it):
            raise wrong(name)


def _hooks(name: str, given: Any) -> None:
    """No function that is to be called later."""
    if given is not None and not (isinstance(given, dict) and len(given) == 0):
        raise wrong(name)


def _within(name: str, storage: Any, offset: Any, size: Any, stride: Any) -> None:
    """Refuses a tensor that isn't within its storage."""
    if "Storage" not in type(storage).__name__ or type(offset) is not int or offset < 0:
        raise wrong(name)
    _sizes(name, size, stride)
    last = offset + sum((many - 1) * step for many, step in zip(size, stride))
    held = getattr(storage, "_size", storage.size)  # (since 2.0 the latter warns)
    if len(size) != len(stride) or 0 not in size and last >= held():
        raise wrong(name)


def judge_tensor(given: Tuple[Any, ...]) -> None:
    """Refuses a tensor that isn't within its storage."""
    name = "_rebuild_tensor_v2"
    if len(given) not in (6, 7) or not isinstance(given[4], bool):
        raise wrong(name)
    _within(name, *given[:4])
    _hooks(name, given[5])


def _functions() -> Any:
    import torch._utils

    return torch._utils


def _tensor(reader: Reader, *given: Any) -> Any:
    """A tensor within its storage."""
    judge_tensor(given)
    return _functions()._rebuild_tensor_v2(*given)


def judge_parameter(given: Tuple[Any, ...], tensor: type) -> None:
    """Refuses a parameter that isn't of a tensor, which is of this class."""
    if len(given) != 3 or type(given[0]) is not tensor or type(given[1]) is not bool:
        raise wrong("_rebuild_parameter")
    _hooks("_rebuild_parameter", given[2])


def _parameter(reader: Reader, *given: Any) -> Any:
    import torch

    judge_parameter(given, torch.Tensor)
    return _functions()._rebuild_parameter(*given)


def _is_validated(reader: Reader) -> bool:
    """Whether PyTorch validates its sparse tensors behind the load: it does with a checkpoint."""
    outer: Any = getattr(reader, "_outer", None)
    return outer is not None and getattr(outer(), "_storage_of", None) is not None


def _sparse(reader: Reader, *given: Any) -> Any:
    """A sparse tensor of two or three dense ones, which PyTorch validates when it has read all."""
    import torch

    if len(given) != 2 or type(given[1]) is not tuple or not _is_validated(reader):
        raise wrong("_rebuild_sparse_tensor")
    *held, size = given[1] or (None,)
    if type(size) is bool and len(held) == 3:  # (since PyTorch 2.1: whether it is coalesced)
        size = held.pop()
    layouts = {torch.sparse_coo: 2, getattr(torch, "sparse_csr", None): 3}  # (not in PyTorch 1.7)
    is_known = type(given[0]) is torch.layout and layouts.get(given[0]) == len(held)
    is_known = is_known and (len(given[1]) == len(held) + 1 or len(held) == 2)
    if not is_known or any(type(it) is not torch.Tensor for it in held):
        raise wrong("_rebuild_sparse_tensor")
    if any(it.layout is not torch.strided or it.dtype is not torch.int64 for it in held[:-1]):
        raise wrong("_rebuild_sparse_tensor")
    _sizes("_rebuild_sparse_tensor", size)
    own = vars(_functions())  # (PyTorch 2 has one function for both)
    made = own.get("_rebuild_sparse_csr_tensor") if len(held) == 3 else None
    return (made or own["_rebuild_sparse_tensor"])(*given)


def _quantized(reader: Reader, *given: Any) -> Any:
    """A tensor of small numbers within its storage, with a scale, or one for each of its rows."""
    import torch

    name = "_rebuild_qtensor"
    if len(given) != 7 or type(given[4]) is not tuple or type(given[5]) is not bool:
        raise wrong(name)
    _within(name, *given[:4])
    _hooks(name, given[6])
    scheme, *scales = given[4] or (None,)
    if scheme is torch.per_tensor_affine:
        if list(map(type, scales)) != [float, int] or abs(scales[1]) >= 1 << 31:
            raise wrong(name)
    elif scheme is torch.per_channel_affine and len(scales) == 3 and type(scales[2]) is int:
        kinds = [(it.dtype, it.dim()) for it in scales[:2] if type(it) is torch.Tensor]
        is_known = kinds == [(torch.float64, 1), (torch.int64, 1)]
        if not is_known or not 0 <= scales[2] < len(given[2]):
            raise wrong(name)
        if {len(it) for it in scales[:2]} != {given[2][scales[2]]}:
            raise wrong(name)
    else:
        raise wrong(name)
    if not str(given[0].dtype).startswith("torch.q"):
        raise wrong(name)
    return _functions()._rebuild_qtensor(*given)


def _meta(reader: Reader, *given: Any) -> Any:
    """A tensor without contents."""
    import torch

    name = "_rebuild_meta_tensor_no_storage"
    if len(given) != 4 or type(given[0]) is not torch.dtype or type(given[3]) is not bool:
        raise wrong(name)
    _sizes(name, *given[1:3])
    return _functions()._rebuild_meta_tensor_no_storage(*given)


def _size(reader: Reader, *given: Any) -> Any:
    import torch

    if len(given) != 1 or type(given[0]) is not tuple:
        raise wrong("Size")
    _sizes("Size", *given)
    return torch.Size(*given)


def _device(reader: Reader, *given: Any) -> Any:
    import torch

    is_text = 1 <= len(given) <= 2 and type(given[0]) is str
    if not is_text or not _DEVICE.fullmatch(given[0]):
        raise wrong("device")
    if any(type(it) is not int or not 0 <= it < 128 for it in given[1:]):
        raise wrong("device")
    return torch.device(*given)


def _layout(reader: Reader, *given: Any) -> Any:
    import torch.serialization

    maker: Any = torch.serialization
    if len(given) != 1 or type(given[0]) is not str:
        raise wrong("_get_layout")
    return maker._get_layout(given[0])


def module_state(reader: Reader, module: Any, state: Any) -> Any:
    """The state of a module. One of `torch.nn` has parameters, buffers and modules, numbers and
    texts, and calls nothing before or after its own code.
    """
    if not isinstance(state, dict):
        raise Misused("the state of a module isn't a dict")
    judge_attributes(module, dict.items(state), False)
    if not type(module).__module__.startswith("torch.nn.modules."):
        return state
    for name, value in dict.items(state):
        if type(name) is not str or not _is_part(type(module), name, value):
            raise Misused(f"a module has a {str(name)[:40]!r} that has an unexpected form")
    return {name: _own(reader, value) for name, value in dict.items(state)}


def _own(reader: Reader, value: Any) -> Any:
    """A container that the pickle can't change any more."""
    if type(value) not in (*_DICTS, list, set):
        return value
    reader.pay(64 * len(value))
    return type(value)(_own(reader, it) for it in value) if type(value) is list else value.copy()


_DICTS = (dict, collections.OrderedDict)


def _is_part(kind: Any, name: str, value: Any) -> bool:
    import torch

    module = torch.nn.Module
    held: Dict[str, Tuple[Any, ...]] = {
        "_parameters": (torch.nn.Parameter, type(None)),
        "_buffers": (torch.Tensor, type(None)),
        "_modules": (module, type(None)),
    }
    if "_hooks" in name:  # (or which of them take keywords, or are always called)
        return type(value) in _DICTS and not value
    if name in held:
        return type(value) in _DICTS and _are(value.values(), held[name]) and all(
            type(key) is str for key in value
        )
    if hasattr(kind, name) and callable(getattr(kind, name)):
        return False  # (it would stand for a method)
    if type(value) in (list, tuple, set, frozenset, torch.Size):
        return all(_is_value(it) or type(it) is list and all(map(_is_value, it)) for it in value)
    return _is_value(value)


def _are(values: Iterable[Any], kinds: Tuple[Any, ...]) -> bool:
    return all(isinstance(it, kinds) for it in values)


def _is_value(it: Any) -> bool:
    """Whether this is an attribute of a module: a plain value, or a function of `torch.nn`."""
    import torch

    kinds = (*_PLAIN, torch.dtype, torch.device, torch.Tensor, torch.nn.Parameter)
    if type(it) in kinds:
        return True
    return any(it is vars(sys.modules[name]).get(word) for name, word in ACTIVATIONS
               if name in sys.modules)


ACTIVATIONS = (
    ("torch.nn.functional", "relu"),
    ("torch.nn.functional", "gelu"),
    ("torch._C._nn", "gelu"),
)
"""Functions that modules of `torch.nn` have as attributes."""
STORAGES = (
    "BFloat16 Bool Byte Char ComplexDouble ComplexFloat Double Float Half Int Long QInt32 QInt8"
    " QUInt2x4 QUInt4x2 QUInt8 Short"
).split()
_UTILS, _DATASETS = "torch._utils", "torch.utils.data.dataset"
TABLE: Dict[Tuple[str, str], Substitute] = {
    **dict(
        [
            row(_UTILS, "_rebuild_tensor_v2", _tensor),
            row(_UTILS, "_rebuild_parameter", _parameter),
            row(_UTILS, "_rebuild_sparse_tensor", _sparse),
            row(_UTILS, "_rebuild_sparse_csr_tensor", _sparse),
            row(_UTILS, "_rebuild_qtensor", _quantized),
            row(_UTILS, "_rebuild_meta_tensor_no_storage", _meta),
            row("torch", "Size", _size),
            row("torch", "device", _device),
            row("torch.serialization", "_get_layout", _layout),
        ]
    ),
    **{("torch", f"{it}Storage"): Value(f"torch.{it}Storage") for it in STORAGES},
    **{pair: Value(".".join(pair)) for pair in ACTIVATIONS},
    **{(_DATASETS, it): Class(f"{_DATASETS}.{it}") for it in ("TensorDataset", "Subset")},
}


def substitute_of(it: Any, module: str) -> Any:
    """The substitute for a class of a whole module of `torch.nn`, which is never called."""
    is_one = isinstance(it, type) and module.startswith("torch.nn.modules.")
    return Class(f"{module}.{it.__qualname__}", it) if is_one else None

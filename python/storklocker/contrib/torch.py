"""PyTorch's checkpoints under a guard.

    from storklocker.contrib.torch import load_torch

    state = load_torch("model.pt", guard)

The file is read once, in either format of `torch.save`: a zip file with exactly one member called
`data.pkl`, or the legacy format, a stream of pickles before the storages. Each pickle is checked
before any is loaded; PyTorch's own reader supplies the storages of tensors. If it imports another
name than the pickle has, such as `torch._tensor.Tensor` for `torch.tensor.Tensor`, list that too.
`torch.load` itself isn't called, because some versions replace their `pickle_module`. Archives of
TorchScript aren't read, nor are the tar files of PyTorch before 0.1.10.
"""

from __future__ import annotations

from typing import Any, Optional

from .._checkpoints import check_archive, check_legacy, loaded
from .._guard import Guard
from .._refusal import loaded_from, name_of
from .numpy import Source, bytes_of

__all__ = ["check_archive", "check_legacy", "load_torch"]


def load_torch(source: Source, guard: Guard, *, map_location: Optional[Any] = None) -> Any:
    """Loads a file written by `torch.save`. Raises Refused if a pickle is refused, and
    UnpicklingError if the file doesn't have one of the formats.
    """
    with loaded_from(name_of(source)):
        return loaded(bytes_of(source), guard.now(), map_location)

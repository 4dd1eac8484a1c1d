"""The functions that load what the processes of this program send one another."""

from __future__ import annotations

import socket
import stat
from types import FrameType
from typing import Any, Dict, FrozenSet, Optional, Tuple

from .trust import asking, is_calling, unchecked

_LOADING: Dict[str, Tuple[str, ...]] = {
    "billiard.pool": ("_recv",),
    "celery.concurrency.asynpool": ("_recv_message",),
    "multiprocessing.queues": ("get",),
    "multiprocessing.spawn": ("_main",),
}
"""By module, those that load it. Others of these modules call functions of the program."""
_EXECUTORS = ("_queue_management_worker", "wait_result_broken_or_wakeup")
_RECEIVING: Dict[str, Tuple[str, ...]] = {
    "concurrent.futures.process": _EXECUTORS,
    "joblib.externals.loky.process_executor": _EXECUTORS,
    "joblib.pool": ("get",),
    "loky.process_executor": _EXECUTORS,
    "multiprocessing.managers": (
        "_callmethod",
        "_handle_request",
        "dispatch",
        "handle_request",
        "serve_client",
        "start",
    ),
    "multiprocessing.pool": ("_handle_results", "_help_stuff_finish"),
    "multiprocessing.reduction": ("recv_handle",),
    "multiprocessing.resource_sharer": ("_serve",),
}
"""Those that have a connection receive it."""
_CONNECTIONS = (("multiprocessing.connection", "recv"), ("torch.multiprocessing.queue", "recv"))
_PASSING = ("billiard.common", "pickle_loads")
"""A function that reads for others, from pipes to its own processes: its caller is what counts."""
_CARRYING: Dict[str, Tuple[str, ...]] = {
    "joblib.externals.loky.cloudpickle_wrapper": ("_reconstruct_wrapper",),
    "joblib.numpy_pickle": ("load_temporary_memmap",),
    "loky.cloudpickle_wrapper": ("_reconstruct_wrapper",),
    "torch.storage": ("_load_from_bytes",),
}
"""Those that a pickle of the program's own calls to load a part of it."""


def is_own(frame: FrameType, more: FrozenSet[str]) -> bool:
    """Whether a frame loads what another process of this program sent, from no network: one of
    these functions, or one of a module in `more`, or such a pickle itself.
    """
    frame = asking(frame)
    if is_calling(frame, unchecked):
        return True
    module, function = _named(frame)
    if (module, function) == _PASSING and frame.f_back is not None:
        frame = frame.f_back
        module, function = _named(frame)
    if (module, function) not in _CONNECTIONS:
        return module in more or function in _LOADING.get(module, ()) or _is_carried(frame)
    # `recv` is called by the function that decides what is received.
    if frame.f_back is None:
        return False
    module, function = _named(frame.f_back)
    if module not in more and function not in _RECEIVING.get(module, ()):
        return False
    held = frame.f_locals.get("self")
    return _is_local(getattr(held, "conn", held))


def _named(frame: FrameType) -> Tuple[str, str]:
    return str(frame.f_globals.get("__name__")), frame.f_code.co_name


def _is_carried(frame: FrameType) -> bool:
    """Whether a frame loads a part of such a pickle, which that asked for itself."""
    package = _named(frame)[0].partition(".")[0]
    back: Optional[FrameType] = frame
    while back is not None and _named(back)[0].partition(".")[0] == package:
        module, function = _named(back)
        back = back.f_back
        if function in _CARRYING.get(module, ()):
            return back is not None and is_calling(asking(back), unchecked)
    return False


def _is_local(connection: Any) -> bool:
    """Whether a connection of multiprocessing is a pipe or a socket of this machine alone. A
    manager may listen on the network.
    """
    from multiprocessing import connection as module

    if type(connection) is getattr(module, "PipeConnection", None):
        return True
    if type(connection) is not module.Connection:
        return False
    import os

    number = connection.fileno()
    if stat.S_ISFIFO(os.fstat(number).st_mode):
        return True
    plain = socket.socket(fileno=number)
    try:
        return plain.family == getattr(socket, "AF_UNIX", None)
    finally:
        plain.detach()

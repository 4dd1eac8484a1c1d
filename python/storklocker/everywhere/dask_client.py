"""A client of Dask under a guard: a refusal is raised where a result is waited for.

The client's own loop over what the scheduler tells would end with the refusal, and each future that
it has would wait for ever.
"""

from __future__ import annotations

import importlib.abc
import importlib.util
import pickle
import sys
from typing import Any

_MODULE = "distributed.client"


def watch_clients() -> None:
    """Has clients end what waits, whenever their module is imported."""
    module = sys.modules.get(_MODULE)
    if module is not None:
        _watch(module)
    elif not any(isinstance(finder, _Importing) for finder in sys.meta_path):
        sys.meta_path.insert(0, _Importing())


class _Importing(importlib.abc.MetaPathFinder):
    """Watches the clients of the module when it has been imported."""

    def find_spec(self, fullname: str, path: Any, target: Any = None) -> Any:
        """The specification of that module alone."""
        if fullname != _MODULE:
            return None
        sys.meta_path.remove(self)
        spec: Any = importlib.util.find_spec(fullname)
        execute = spec.loader.exec_module

        def exec_module(module: Any) -> None:
            execute(module)
            _watch(module)

        spec.loader.exec_module = exec_module
        return spec


def _watch(module: Any) -> None:
    kind: Any = getattr(module, "Client", None)
    plain: Any = getattr(kind, "_handle_report", None)
    erred: Any = getattr(kind, "_handle_task_erred", None)
    if plain is None or erred is None or hasattr(plain, "_is_watching"):
        return

    async def _handle_report(self: Any) -> Any:
        while True:
            try:
                return await plain(self)
            except pickle.UnpicklingError as error:  # (the message was read)
                for future in list(self.futures.values()):
                    if future.status == "pending":
                        future.set_error(error, None)

    def _handle_task_erred(self: Any, key: Any = None, **said: Any) -> None:
        try:
            erred(self, key=key, **said)
        except Exception as error:  # what can't be loaded is no exception or traceback
            if key in self.futures:
                fault = pickle.UnpicklingError("the error of this task can't be loaded")
                fault.__cause__ = error
                self.futures[key].set_error(fault, None)

    setattr(_handle_report, "_is_watching", True)
    kind._handle_report, kind._handle_task_erred = _handle_report, _handle_task_erred

"""Calls that a signal can interrupt."""

from __future__ import annotations

import threading

TYPE_CHECKING = False
if TYPE_CHECKING:
    from typing import Any, Callable, List, TypeVar

    T = TypeVar("T")


def interruptible(call: Callable[..., T], *given: Any) -> T:
    """The result of a long call that releases the GIL.

    If a signal handler raises meanwhile, as it does for Ctrl-C, this raises at once. The call then
    runs to its end in the background, and its result is dropped.
    """
    if threading.get_ident() != threading.main_thread().ident:
        return call(*given)  # Python runs signal handlers only in the main thread
    results: List[T] = []
    errors: List[BaseException] = []

    def work() -> None:
        try:
            results.append(call(*given))
        except BaseException as error:
            errors.append(error)

    thread = threading.Thread(target=work, daemon=True)  # the process can end before the call
    try:
        thread.start()
    except RuntimeError:  # the process may have no more threads
        return call(*given)
    thread.join()
    if errors:
        raise errors.pop()  # a variable of it would make a cycle with this frame
    return results.pop()

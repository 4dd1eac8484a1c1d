"""Reads the bytes of a pickle from a file, before they are checked."""

from __future__ import annotations

import io
import pickle

from ._reasons import Reason

TYPE_CHECKING = False
if TYPE_CHECKING:
    from typing import Any, Callable, Optional, Tuple

    from ._answers import Verdict
    from ._guard import Guard

FIRST_BLOCK = 1 << 14
"""The size of the first block."""
_FRONT = 4096


def block_of(read: Callable[..., Any], count: int) -> bytes:
    """Reads up to `count` bytes; returns none at the end of the file."""
    try:
        given = read(count)
    except UnicodeDecodeError as error:
        raise TypeError("the file must be open in binary mode: it decodes its bytes") from error
    if given is None:
        raise BlockingIOError("the file has no bytes yet: use a file in blocking mode")
    if isinstance(given, (bytes, bytearray, memoryview)):
        return bytes(given)
    raise TypeError(f"the file must be open in binary mode: it returned {type(given)!r}")


def copied(guard: Guard, view: memoryview) -> bytes:
    """A copy of a buffer as bytes. Checks the front of a long buffer before copying all of it."""
    if view.nbytes > 2 * _FRONT and view.c_contiguous and view.ndim == 1:
        front = bytes(pickle.PickleBuffer(view).raw()[:_FRONT])
        verdict = guard.judge(front)
        if verdict.reason is not Reason.Truncated and guard.enforce:
            raise guard.told(verdict, front, view.nbytes)
    return bytes(view)


def can_step_back(file: Any) -> bool:
    """Whether a file can seek back to the end of a pickle cheaply.

    A file with `peek` and without `raw`, such as `gzip.GzipFile`, would start over from its first
    byte.
    """
    if hasattr(file, "peek") and not hasattr(file, "raw"):
        return False
    try:
        return bool(file.seekable())
    except (AttributeError, ValueError):
        return False


def next_in(guard: Guard, file: Any) -> Optional[bytes]:
    """Bytes that begin with the next pickle of a file, which the guard accepts. None if the file
    can't step back.
    """
    found = next_pickle(file, guard.max_bytes, guard.judge)
    if found is None:
        return None
    data, verdict = found
    if not data:
        raise EOFError("Ran out of input")
    if not verdict:
        from ._refusal import loaded_from, name_of  # (a refusal may cost)

        with loaded_from(name_of(file)):
            raise guard.told(verdict, data)
    return data


def next_pickle(
    file: Any, most: int, judged: Callable[[bytes], Verdict]
) -> Optional[Tuple[bytes, Verdict]]:
    """The bytes of a file that begin with its next pickle, and the verdict on them. Leaves the file
    right after the pickle, or where it was if the pickle is refused. Reads no more than `most`
    bytes of it. None if the file can't step back.
    """
    seen = b""
    if type(file) is io.BufferedReader:
        seen = file.peek()
        verdict = judged(seen)
        if verdict and verdict.taken <= most:
            file.read(verdict.taken)  # all of it is in the buffer
            return seen, verdict
    if not can_step_back(file):
        return None
    place, data = file.tell(), b""
    size = len(seen) + _size_after(len(seen))
    while True:
        more = block_of(file.read, max(0, min(size, most - len(data))))
        data += more
        verdict = judged(data)
        if verdict.reason is not Reason.Truncated or not more:
            break
        size = _size_after(len(data))
    file.seek(place + verdict.taken)
    return data, too_long(verdict, len(data), most)


def too_long(verdict: Verdict, length: int, most: int) -> Verdict:
    """The verdict, if the pickle has `length` bytes or more and no more than `most` are permitted.
    """
    if length > most or length == most and verdict.reason is Reason.Truncated:
        refused: Verdict = verdict._replace(accepted=False, reason=Reason.TooLarge)
        return refused
    return verdict


def _size_after(length: int) -> int:
    """The size of the block after this many bytes. Each block costs a check of all bytes so far,
    but reading far costs memory: the total grows sixteenfold to a megabyte or so, then fourfold.
    """
    return max(FIRST_BLOCK, min(15 * length, 1 << 20), 3 * length)

"""Scans files in several processes."""

from __future__ import annotations

import concurrent.futures
import concurrent.futures.process
import multiprocessing
import multiprocessing.connection
import os
import signal
import sys
import threading
from typing import Deque, Iterable, Iterator, List, Tuple

from .file import File
from .files import batches
from .judging import Question, prepare
from .report import Report
from .one_file import reports_on

_FILES, _BYTES = 32, 1 << 18
"""The most files and bytes in the batch of a process. The latter spreads a few large files."""
_AHEAD = 4
"""The most batches that wait for each process. Bounded, so that millions of files cost no memory.
"""
_question = Question()
"""In a worker: what the scan has to find out. It has the list, which may be long, so it is sent
once and not with each batch.
"""

Batch = List[File]


def scan_in_processes(
    files: Iterable[File], question: Question, jobs: int
) -> Iterator[Tuple[File, List[Report]]]:
    """Yields each file and the reports on it, in the order of the files."""
    with _pool_of(question, jobs) as pool:
        waiting: Deque[Tuple[Batch, "concurrent.futures.Future[List[List[Report]]]"]] = Deque()
        try:
            for batch in batches(files, _FILES, _BYTES):
                waiting.append((batch, _submitted(pool, batch, question)))
                if len(waiting) >= _AHEAD * jobs:
                    done, future = waiting.popleft()
                    yield from zip(done, future.result())
            for done, future in waiting:
                yield from zip(done, future.result())
        except BaseException as error:
            for child in multiprocessing.active_children():
                child.terminate()
            if isinstance(error, concurrent.futures.process.BrokenProcessPool):
                why = "one of the processes ended; there may be no memory for so many"
                raise ChildProcessError(why) from None
            raise


def _pool_of(question: Question, jobs: int) -> concurrent.futures.ProcessPoolExecutor:
    if multiprocessing.get_start_method() == "fork":
        prepare()  # once, and not in each process
    try:
        return concurrent.futures.ProcessPoolExecutor(
            jobs, initializer=_begin, initargs=(question,)
        )
    except (OSError, NotImplementedError):
        why = "no semaphores for several processes (is /dev/shm mounted?): scan with one"
        raise OSError(why) from None


def _submitted(
    pool: concurrent.futures.Executor, batch: Batch, question: Question
) -> "concurrent.futures.Future[List[List[Report]]]":
    if all(file.path != "-" for file in batch):
        return pool.submit(_scan_batch, batch)
    # worker processes have no standard input
    done: "concurrent.futures.Future[List[List[Report]]]" = concurrent.futures.Future()
    done.set_result([reports_on(file, question) for file in batch])
    return done


def _scan_batch(batch: Batch) -> List[List[Report]]:
    return [reports_on(file, _question) for file in batch]


def _begin(question: Question) -> None:
    """Prepares a worker: only the first process handles Ctrl-C, and no worker outlives it."""
    global _question
    _question = question
    if "fsspec.asyn" in sys.modules:
        sys.modules["fsspec.asyn"].reset_lock()  # (its thread is in the first process)
    signal.signal(signal.SIGINT, signal.SIG_IGN)
    parent = multiprocessing.parent_process()
    if parent is not None:
        threading.Thread(target=_end_with, args=(parent.sentinel,), daemon=True).start()


def _end_with(sentinel: int) -> None:
    multiprocessing.connection.wait([sentinel])
    os._exit(1)

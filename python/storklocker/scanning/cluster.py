"""Scans files on the workers of a dask.distributed cluster."""

from __future__ import annotations

import asyncio
import base64
import json
import pickle
import threading
from typing import Any, Deque, Dict, Iterable, Iterator, List, NamedTuple, Tuple

from .file import File
from .files import batches
from .isolated import Isolated
from .judging import Question
from .lacking import needs
from .report import Finding, Report, report_of, unreadable

FILES, BYTES = 256, 1 << 26
"""The most files and bytes of a batch."""
_AHEAD = 4
"""The most batches that wait for each thread of the cluster."""
_PAUSE, _PAUSES = 5.0, 24
"""How often a cluster may be found without a worker before it is given up, and the seconds between.
"""
_held = threading.local()

Answer = List[str]
"""The reports on each file, as JSON."""


class _Waiting(NamedTuple):
    """A batch and what comes of it."""

    batch: List[File]
    future: Any


def scan_in_cluster(
    files: Iterable[File], question: Question, address: str
) -> Iterator[Tuple[File, List[Report]]]:
    """Yields the reports on each file, in the order of the files."""
    with _connected(address) as client:
        yield from _Cluster(client, question).scanned(files)


def _connected(address: str) -> Any:
    try:
        import distributed
    except ImportError:
        raise needs("--cluster", "distributed") from None
    connect: Any = distributed.Client
    try:
        return connect(address, set_as_default=False)
    except (OSError, ValueError) as error:
        raise OSError(f"no cluster answers at {address}: {error}") from None


class _Cluster:
    def __init__(self, client: Any, question: Question) -> None:
        self._client = client
        self._question = base64.b64encode(pickle.dumps(question)).decode()
        self._most = _AHEAD * max(2, sum(client.nthreads().values()))

    def scanned(self, files: Iterable[File]) -> Iterator[Tuple[File, List[Report]]]:
        """The reports, while later batches are worked on."""
        waiting: Deque[_Waiting] = Deque()
        for batch in batches(files, FILES, BYTES):
            waiting.append(_Waiting(batch, self._submitted(batch)))
            if len(waiting) >= self._most:
                yield from self._answer(waiting.popleft())
        while waiting:
            yield from self._answer(waiting.popleft())

    def _submitted(self, batch: List[File]) -> Any:
        unknown = [file for file in batch if file.known is None]
        if not unknown:
            return None
        return self._client.submit(scan_batch, unknown, self._question, pure=False)

    def _answer(self, waiting: _Waiting) -> Iterator[Tuple[File, List[Report]]]:
        answers = iter(self._results(waiting))
        for file in waiting.batch:
            if file.known is not None:
                yield file, list(file.known)
            else:
                yield file, [report_of(it) for it in json.loads(next(answers))]

    def _results(self, waiting: _Waiting) -> Answer:
        """The answers on the unknown files. A batch that ended its workers is tried again file by
        file.
        """
        from distributed.scheduler import KilledWorker

        if waiting.future is None:
            return []
        try:
            return self._result(waiting.future)
        except KilledWorker:
            unknown = [file for file in waiting.batch if file.known is None]
            return [self._alone(file) for file in unknown]
        except ImportError as error:
            raise OSError(f"the workers lack a package: {error}") from None
        except Exception as error:
            raise OSError(f"the cluster failed: {type(error).__name__}: {error}") from error

    def _result(self, future: Any) -> Answer:
        """What comes of a batch. A cluster that has lost all of its workers may get new ones, for
        which it is given some time.
        """
        lonely = 0
        while lonely < _PAUSES:
            try:
                answer: Answer = future.result(timeout=_PAUSE)
                return answer
            except asyncio.TimeoutError:  # it may be the worker's, or too early
                if future.status == "error":
                    error: BaseException = future.exception()
                    raise error from None
                lonely = 0 if self._client.nthreads() else lonely + 1
        raise TimeoutError(f"no worker for {_PAUSE * _PAUSES:.0f} seconds")

    def _alone(self, file: File) -> str:
        from distributed.scheduler import KilledWorker

        try:
            return self._result(self._submitted([file]))[0]
        except KilledWorker:
            why = Finding("unreadable", "the workers that read it ended")
            report = unreadable(file.path, "file", why, file.path)
            return json.dumps([report.as_dict()])


def scan_batch(batch: List[File], question: str) -> Answer:
    """In a worker: the reports on each file."""
    scanners: Dict[str, Isolated] = _held.__dict__.setdefault("scanners", {})
    if question not in scanners:
        for scanner in scanners.values():
            scanner.end()
        scanners.clear()
        scanners[question] = Isolated(pickle.loads(base64.b64decode(question)))
    scanner = scanners[question]
    return [json.dumps([it.as_dict() for it in scanner.scan(file)]) for file in batch]

"""The processes that read what strangers send: those of `scanning.isolated`, under limits."""

from __future__ import annotations

import asyncio
import contextlib
import logging
import resource
from asyncio.subprocess import DEVNULL, PIPE, Process
from collections import deque
from typing import Deque, List, NamedTuple, Set, Union

from ..scanning import isolated
from ..scanning.file import File
from ..scanning.report import Report, of_one_file
from .bodies import Body, Room
from .lists import Lists

_LOG = logging.getLogger("storklocker")
PATH = "body"
"""What reports call the bytes of a request."""
_WARMING = (b"", b"cos\nsystem\n.", b"N.")
"""What a new process reads first, so that nobody waits for what it imports."""
_LONGEST = 1 << 26
"""The most bytes of an answer."""
_START = 60.0
"""The seconds that a process may take to start."""
_PAUSES = (0.0, 0.1, 0.5, 2.0, 10.0)
"""The seconds before a process is started again, the more often that fails."""


class Ended(Exception):
    """The process that read it ended."""


class Late(Exception):
    """It wasn't read in time."""


class Busy(Exception):
    """No worker became free in time."""


class Told(NamedTuple):
    """What a worker says of bytes."""

    reports: List[Report]
    etag: str
    """The ETag of the list that it has judged by."""


class Asked(NamedTuple):
    """What a worker is asked."""

    kind: str
    listed: str
    """The name of the list; empty if none is asked."""
    held: str
    """Where the bytes are."""
    is_front: bool = False
    """Whether there may be more of them."""


class Worker:
    """A process, and the lists that it judges by."""

    def __init__(self, process: Process, lists: Lists) -> None:
        self._process, self.lists = process, lists
        self._numbers = {key: number for number, key in enumerate(lists.questions())}

    async def told(self, asked: Asked) -> List[Report]:
        """The answer. Raises Ended."""
        file = File(PATH, held=asked.held)
        number = self._numbers[asked.kind, asked.listed]
        answer = await self.answer(isolated.line_of(file, number, asked.is_front))
        return of_one_file(isolated.reports_in(answer))

    async def answer(self, line: bytes) -> bytes:
        """The answer to a line. Raises Ended."""
        assert self._process.stdin is not None and self._process.stdout is not None
        try:
            self._process.stdin.write(line)
            await self._process.stdin.drain()
            answer = await self._process.stdout.readline()
        except (ConnectionError, ValueError):  # (a line that is longer than any may be)
            answer = b""
        if not answer.endswith(b"\n"):
            raise Ended
        return answer

    def end(self) -> None:
        """Ends the process."""
        with contextlib.suppress(ProcessLookupError):
            self._process.kill()

    async def ended(self) -> None:
        """Ends the process, and waits until it has."""
        self.end()
        await self._process.wait()


async def started(lists: Lists, memory: int) -> Worker:
    """A worker that answers. Raises Ended and OSError."""
    words, environment = isolated.start()
    streams = {"stdin": PIPE, "stdout": PIPE, "stderr": DEVNULL}
    process = await asyncio.create_subprocess_exec(
        *words, env=environment, limit=_LONGEST, **streams  # type: ignore[arg-type]
    )
    worker = Worker(process, lists)
    try:
        limit(process.pid, memory)
        assert process.stdin is not None
        process.stdin.write(isolated.line_of_questions(list(lists.questions().values())))
        await asyncio.wait_for(_warmed(worker), _START)
    except BaseException as error:
        await worker.ended()
        if isinstance(error, asyncio.TimeoutError):
            raise Ended from None
        raise
    return worker


async def _warmed(worker: Worker) -> None:
    for data in _WARMING:
        with Body(Room(len(data), len(data))) as body:
            body.add(data)
            for kind, listed in worker.lists.questions():
                await worker.told(Asked(kind, listed, str(body.path)))


def limit(process: int, memory: int) -> None:
    """Sets what a process may take, whose bytes a stranger has written. Raises Ended if it has
    ended.
    """
    try:
        resource.prlimit(process, resource.RLIMIT_AS, (memory, memory))
        resource.prlimit(process, resource.RLIMIT_CORE, (0, 0))
        resource.prlimit(process, resource.RLIMIT_FSIZE, (0, 0))
    except ProcessLookupError:
        raise Ended from None


_Said = Union[Told, Ended, Late]


class Workers:
    """So many workers, of which each answers one request at a time. One that dies is replaced."""

    def __init__(self, number: int, memory: int, lists: Lists) -> None:
        self._number, self._memory, self.lists = number, memory, lists
        self._idle: Deque[Worker] = deque()
        self._all: Set[Worker] = set()
        self._waiting: Deque["asyncio.Future[Worker]"] = deque()
        self._tasks: Set["asyncio.Task[None]"] = set()
        self.deaths = 0

    @property
    def alive(self) -> int:
        """How many there are."""
        return len(self._all)

    async def start(self) -> None:
        """Starts them all. Raises Ended and OSError."""
        self._take(await self._started(self.lists))

    async def renew(self, lists: Lists) -> None:
        """Replaces all by some that judge by other lists: from one moment on, each request that
        begins is judged by these. Raises Ended and OSError, and leaves them as they were.
        """
        made = await self._started(lists)
        self.lists = lists
        before, self._all = self._all, set()
        idle, self._idle = self._idle, deque()
        self._take(made)
        for worker in before.intersection(idle):
            worker.end()

    async def _started(self, lists: Lists) -> List[Worker]:
        starting = (started(lists, self._memory) for _ in range(self._number))
        made = await asyncio.gather(*starting, return_exceptions=True)
        good = [it for it in made if isinstance(it, Worker)]
        if len(good) == len(made):
            return good
        for worker in good:
            worker.end()
        raise next(it for it in made if isinstance(it, BaseException))

    def _take(self, made: List[Worker]) -> None:
        for worker in made:
            self._all.add(worker)
            self._give(worker)

    def _give(self, worker: Worker) -> None:
        """Hands an idle worker to who has waited longest."""
        while self._waiting:
            waiting = self._waiting.popleft()
            if not waiting.done():
                waiting.set_result(worker)
                return
        self._idle.append(worker)

    async def ask(self, asked: Asked, ends: float) -> Told:
        """What a worker says. Raises Busy, Ended and Late; the last at a time of the loop's clock.
        """
        worker = await self._free(ends)
        # (a request that is given up lets its worker finish: to start another costs more)
        said = await asyncio.shield(self._told(worker, asked, ends))
        if isinstance(said, Told):
            return said
        raise said

    async def _free(self, ends: float) -> Worker:
        if self._idle:
            return self._idle.popleft()
        loop = asyncio.get_event_loop()
        waiting: "asyncio.Future[Worker]" = loop.create_future()
        self._waiting.append(waiting)
        clock = loop.call_at(ends, _give_up, waiting)
        try:
            return await waiting
        except asyncio.CancelledError:
            if waiting.done() and not waiting.cancelled() and waiting.exception() is None:
                self._give(waiting.result())
            raise
        finally:
            clock.cancel()

    async def _told(self, worker: Worker, asked: Asked, ends: float) -> _Said:
        loop = asyncio.get_event_loop()
        clock = loop.call_at(ends, worker.end)
        try:
            told = Told(await worker.told(asked), worker.lists.etags.get(asked.listed, ""))
        except Exception as error:
            self._replace(worker)
            if not isinstance(error, Ended):
                _LOG.error("A worker sent a malformed answer: %s", type(error).__name__)
            return Late() if loop.time() >= ends else Ended()
        finally:
            clock.cancel()
        if worker in self._all:
            self._give(worker)
        else:  # (its lists are of the past)
            worker.end()
        return told

    def _replace(self, worker: Worker) -> None:
        self.deaths += 1
        worker.end()
        if worker in self._all:
            self._all.remove(worker)
            task = asyncio.ensure_future(self._started_again())
            self._tasks.add(task)
            task.add_done_callback(self._tasks.discard)

    async def _started_again(self) -> None:
        """Starts one more, however often that fails."""
        tries = 0
        while True:
            await asyncio.sleep(_PAUSES[min(tries, len(_PAUSES) - 1)])
            lists, tries = self.lists, tries + 1
            try:
                worker = await started(lists, self._memory)
            except (Ended, OSError) as error:
                _LOG.error("A worker doesn't start: %s", type(error).__name__)
                continue
            if lists is self.lists:
                self._take([worker])
                return
            worker.end()
            if self.alive >= self._number:
                return

    async def end(self) -> None:
        """Ends them all."""
        for task in list(self._tasks):
            task.cancel()
        workers, self._all = list(self._all), set()
        self._idle.clear()
        await asyncio.gather(*(worker.ended() for worker in workers))


def _give_up(waiting: "asyncio.Future[Worker]") -> None:
    if not waiting.done():
        waiting.set_exception(Busy())

"""One way from the bytes of a request to an answer, which both protocols take."""

from __future__ import annotations

import asyncio
from typing import Any, AsyncIterator, Dict, List, NamedTuple, Optional, Tuple, Union

from ..metrics import Counts
from ..scanning.answering import YES, Checking, Importing, status_of
from ..scanning.report import Report
from ..scanning.severity import REFUSED
from ..scanning.summary import Summary
from ..scanning.words import Word
from .bodies import Body, Room
from .exporting import Exported, Exporter
from .lists import CHECK, DEFAULT, IMPORTS, PLAIN, Lists
from .settings import Settings
from .workers import PATH, Asked, Told, Workers


class Answer(NamedTuple):
    """What a command of this name says of the bytes."""

    status: int
    """Its exit status: 0 is a yes, and nothing else is."""
    lines: List[str]
    reports: List[Report]
    listed: str
    etag: str
    read: int
    """How many bytes were read of it."""

    @property
    def is_yes(self) -> bool:
        """Whether it is a yes."""
        return self.status == YES

    @property
    def word(self) -> Word:
        """The one word for it."""
        first = self.reports[0]
        return first.verdict or first.status

    def as_dict(self) -> Dict[str, Any]:
        """What `check` and `imports` answer over HTTP."""
        return {
            "status": self.status,
            "lines": self.lines,
            "read": self.read,
            "reports": [report.as_dict() for report in self.reports],
        }


class Desk:
    """Holds the bytes, asks the workers, and counts."""

    def __init__(self, settings: Settings, lists: Lists) -> None:
        self._settings = settings
        self.room = Room(settings.max_bytes, settings.max_memory)
        self._exporter = Exporter(settings.workers, settings.max_memory, settings.max_bytes)
        self.workers = Workers(settings.workers, settings.max_memory, lists)
        self.counts = Counts()
        self.read = 0
        self.is_stale = False
        """Whether the files of the lists couldn't be read when they were looked at last."""

    @property
    def lists(self) -> Lists:
        """The lists as they are now."""
        return self.workers.lists

    def ends(self) -> float:
        """When a request that begins now has to be answered, by the loop's clock."""
        return asyncio.get_event_loop().time() + self._settings.max_seconds

    async def answer(
        self, kind: str, pieces: AsyncIterator[bytes], ends: float, listed: str = DEFAULT
    ) -> Answer:
        """The answer on the bytes in these pieces. If what is there is refused whatever follows, no
        more are taken. Raises what `bodies` and `workers` do, and what the pieces do.
        """
        listed = "" if kind == IMPORTS else listed
        with Body(self.room) as body:
            told = await self._gathered(kind, listed, pieces, body, ends)
            told = told or await self._told(kind, listed, body, ends)
            answer = self._answer(kind, listed, told, body)
        if kind != IMPORTS:
            self._count(answer)
        return answer

    async def exported(self, kind: str, pieces: AsyncIterator[bytes], ends: float) -> Exported:
        """What a command prints of the bytes in these pieces. Where a plain pickle is wanted, no
        more of them are taken once an import is there. Raises also what the exporter does.
        """
        with Body(self.room) as body:
            await self._gathered(PLAIN if kind == "json" else IMPORTS, "", pieces, body, ends)
            return await self._exporter.exported(kind, str(body.path), ends)

    async def _gathered(
        self, kind: str, listed: str, pieces: AsyncIterator[bytes], body: Body, ends: float
    ) -> Optional[Told]:
        """Puts the pieces into the body; what is told of its front, if that is refused."""
        async for piece in pieces:
            body.add(piece)
            self.read += len(piece)
            if kind != IMPORTS and body.is_due():
                front = await self._told(kind, listed, body, ends, True)
                if front.reports and not self._answer(kind, listed, front, body).is_yes:
                    return front
        return None

    async def _told(
        self, kind: str, listed: str, body: Body, ends: float, is_front: bool = False
    ) -> Told:
        asked = Asked(kind, listed, str(body.path), is_front)
        return await self.workers.ask(asked, ends)

    def _answer(self, kind: str, listed: str, told: Told, body: Body) -> Answer:
        """What the command would say and end with."""
        if not told.reports:
            raise ValueError("a worker reported nothing")
        status, lines = self._said(kind, told.reports)
        return Answer(status, lines, told.reports, listed, told.etag, body.size)

    def _said(self, kind: str, reports: List[Report]) -> Tuple[int, List[str]]:
        is_guarded = self._settings.guarded
        if kind in (CHECK, IMPORTS):
            said: Union[Checking, Importing]
            said = Checking(is_guarded) if kind == CHECK else Importing()
            lines = list(said.lines(reports, PATH))
            return said.status, lines
        told = Summary(REFUSED, is_guarded)
        lines = [report.why for report in told.heard(reports)]
        return status_of(told), lines

    def _count(self, answer: Answer) -> None:
        if answer.is_yes:
            self.counts.accept()
        else:
            self.counts.refuse_for(answer.word.value)

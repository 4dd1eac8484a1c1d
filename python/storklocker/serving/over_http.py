"""The server for HTTP, by aiohttp."""

from __future__ import annotations

import asyncio
import hmac
import inspect
import json
import logging
from collections import Counter
from typing import Any, AsyncIterator, Awaitable, Callable, Dict, Optional, Tuple, Type

from aiohttp import web
from aiohttp.web_protocol import RequestHandler

from .._storklocker import version as __version__
from . import exporting, routes
from .bodies import NoRoom, TooLarge
from .connections import Connections
from .desk import Answer, Desk
from .lists import DEFAULT, IMPORTS, SCAN
from .measures import text_of
from .workers import Busy, Ended, Late

_LOG = logging.getLogger("storklocker")
_QUIET = logging.getLogger("storklocker.serving.quiet")
_QUIET.disabled = True  # aiohttp logs headers that it can't read, which may have the token
_LINGER = 2.0
"""The seconds in which the rest of a refused body is dropped, so that its sender reads why."""


class Unreadable(Exception):
    """A body is malformed, or was cut."""


class LateBody(Exception):
    """A body took too long."""


_FAULTS: Dict[Type[BaseException], Tuple[int, str]] = {
    Unreadable: (routes.BAD, "the body is malformed or was cut"),
    LateBody: (routes.LATE_BODY, "the body took too long"),
    TooLarge: (routes.TOO_LARGE, "too many bytes"),
    NoRoom: (routes.BUSY, "there is no room for the body now"),
    Busy: (routes.BUSY, "no worker became free in time"),
    Ended: (routes.BUSY, "the process that read the body ended"),
    Late: (routes.LATE, "judging took too long"),
    FileNotFoundError: (routes.ABSENT, "this package has no program pktool"),
}
"""What each fault is answered with."""

Handler = Callable[[web.Request], Awaitable[web.StreamResponse]]


class Api:
    """Answers requests. `token`: what they need, if anything."""

    def __init__(
        self,
        desk: Desk,
        connections: Connections,
        token: bytes,
        answered: "Counter[Tuple[str, int]]",
    ) -> None:
        self._desk, self._connections = desk, connections
        self._token, self._answered = token, answered
        self.is_ending = False
        self._openapi = routes.openapi()
        self._handlers: Dict[str, Handler] = {
            "check": self._judge,
            "scan": self._judge,
            "imports": self._judge,
            "json": self._export,
            "explain": self._explain,
            "lists": self._lists,
            "metrics": self._metrics,
            "healthz": self._health,
            "openapi": self._describe,
        }

    def runner(self) -> web.AppRunner:
        """What runs the server."""

        async def middle(request: web.Request, handler: Handler) -> web.StreamResponse:
            return await self._middle(request, handler)

        app = web.Application(middlewares=[web.middleware(middle)])
        for route in routes.ROUTES:
            app.router.add_route(route.method, route.path, self._handlers[route.name])
        words: Dict[str, Any] = {"lingering_time": _LINGER, "logger": _QUIET, "access_log": None}
        if "auto_decompress" in inspect.signature(RequestHandler.__init__).parameters:
            words["auto_decompress"] = False  # (a body that is packed is refused)
        return web.AppRunner(app, **words)

    async def _middle(self, request: web.Request, handler: Handler) -> web.StreamResponse:
        """Answers every request, also where the handler raises, and counts it."""
        name = request.path.split("/")[1].partition(".")[0]
        answer: Optional[web.StreamResponse]
        with self._connections.asking(request.protocol):
            try:
                answer = self._turned_away(request, name)
                if answer is None:  # (answers are mappings: an empty one is false)
                    answer = await handler(request)
            except web.HTTPException as error:
                answer = _fault(error.status, error.reason)
            except Exception as error:
                answer = self._faulty(error, name)
        self._answered[name if name in self._handlers else "other", answer.status] += 1
        if not request.content.is_eof() and isinstance(answer, web.Response):
            answer.force_close()  # (the rest of the body is dropped)
        return answer

    def _turned_away(self, request: web.Request, name: str) -> Optional[web.Response]:
        """The answer to a request that isn't heard, if it isn't."""
        if name != "healthz":
            if self._token and not self._has_token(request):
                answer = _fault(routes.UNAUTHORIZED, "a token is needed")
                answer.headers["WWW-Authenticate"] = "Bearer"
                return answer
            if "Origin" in request.headers:
                return _fault(routes.FORBIDDEN, "requests of browser pages are refused")
        if request.method == "POST":
            if request.headers.get("Content-Encoding", "identity") != "identity":
                return _fault(routes.ENCODED, "send the bytes without a Content-Encoding")
            if (request.content_length or 0) > self._desk.room.each:
                return _fault(routes.TOO_LARGE, "too many bytes")
            if self.is_ending:
                return _fault(routes.BUSY, "the daemon is stopping")
        return None

    def _has_token(self, request: web.Request) -> bool:
        given = request.headers.get("Authorization", "")
        kind, _, token = given.partition(" ")
        is_same = hmac.compare_digest(token.strip().encode("utf-8", "surrogateescape"), self._token)
        return kind.lower() == "bearer" and is_same

    def _faulty(self, error: Exception, name: str) -> web.Response:
        for kind, (status, why) in _FAULTS.items():
            if isinstance(error, kind):
                return _fault(status, why)
        _LOG.error("A fault of the daemon in /%s: %s", name, type(error).__name__)
        return _fault(routes.BROKEN, "a fault of the daemon")

    async def _judge(self, request: web.Request) -> web.Response:
        kind = request.path[1:]
        listed = DEFAULT if kind == IMPORTS else request.query.get("list", DEFAULT)
        etag = self._desk.lists.etags.get(listed)
        if etag is None:
            return _fault(routes.UNKNOWN, "there is no list of this name")
        wanted = request.headers.get("If-Match", "*") if kind != IMPORTS else "*"
        if wanted not in ("*", etag):
            return _fault(routes.CHANGED, "the list is another one")
        ends = self._desk.ends()
        answer = await self._desk.answer(kind, _pieces(request, ends), ends, listed)
        if wanted not in ("*", answer.etag):  # (it has changed meanwhile)
            return _fault(routes.CHANGED, "the list is another one")
        status = routes.OK if answer.is_yes else routes.NO
        return _json(status, _body(kind, answer), answer.etag)

    async def _export(self, request: web.Request) -> web.Response:
        ends = self._desk.ends()
        done = await self._desk.exported("json", _pieces(request, ends), ends)
        if done.status != exporting.YES:
            why = done.said.decode("ascii", "backslashreplace").rstrip("\n")
            return _fault(routes.NO, why)
        return web.Response(body=done.said, content_type="application/json")

    async def _explain(self, request: web.Request) -> web.Response:
        ends = self._desk.ends()
        done = await self._desk.exported("explain", _pieces(request, ends), ends)
        status = routes.OK if done.status == exporting.YES else routes.NO
        return web.Response(body=done.said, status=status, content_type="application/json")

    async def _lists(self, request: web.Request) -> web.Response:
        allows, etags = self._desk.lists
        name = request.match_info.get("name")
        if name is None:
            found = {it: {"etag": etags[it], "names": len(allows[it])} for it in allows}
            return _json(routes.OK, found)
        if name not in allows:
            return _fault(routes.UNKNOWN, "there is no list of this name")
        headers = {"ETag": etags[name]}
        if request.headers.get("If-None-Match") == etags[name]:
            return web.Response(status=routes.NOT_MODIFIED, headers=headers)
        return web.Response(text=allows[name].to_text(), headers=headers)

    async def _metrics(self, _: web.Request) -> web.Response:
        return web.Response(text=text_of(self._desk, self._connections, self._answered))

    async def _health(self, _: web.Request) -> web.Response:
        if self.is_ending or not self._desk.workers.alive:
            return _fault(routes.BUSY, "no worker is ready, or the daemon is stopping")
        found = {"version": __version__, "workers": self._desk.workers.alive}
        return _json(routes.OK, found)

    async def _describe(self, _: web.Request) -> web.Response:
        return _json(routes.OK, self._openapi)


async def _pieces(request: web.Request, ends: float) -> AsyncIterator[bytes]:
    """The bytes of a body as they come. Raises Unreadable and LateBody."""
    loop = asyncio.get_event_loop()
    while True:
        try:
            left = max(0.0, ends - loop.time())
            piece = await asyncio.wait_for(request.content.readany(), left)
        except asyncio.TimeoutError:
            raise LateBody from None
        except (web.RequestPayloadError, OSError, EOFError) as error:
            raise Unreadable from error
        if not piece:
            return
        yield piece


def _body(kind: str, answer: Answer) -> Any:
    if kind == SCAN:
        return [report.as_dict() for report in answer.reports]
    if kind == IMPORTS:
        pairs = dict.fromkeys(pair for it in answer.reports for pair in it.imports)
        return {**answer.as_dict(), "imports": [list(pair) for pair in pairs]}
    return {
        "accepted": answer.is_yes,
        "verdict": answer.word.value,
        **answer.as_dict(),
        "list": answer.listed,
        "etag": answer.etag,
    }


def _json(status: int, body: Any, etag: str = "") -> web.Response:
    text = json.dumps(body) + "\n"
    answer = web.Response(status=status, text=text, content_type="application/json")
    answer.headers.update({"Cache-Control": "no-store", "Server": f"storklocker/{__version__}"})
    if etag:
        answer.headers["ETag"] = etag
    return answer


def _fault(status: int, why: str) -> web.Response:
    answer = _json(status, {"error": why})
    if status == routes.BUSY:
        answer.headers["Retry-After"] = "1"
    return answer

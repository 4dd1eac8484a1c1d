"""Objects over HTTP, in the session of fsspec, from a server that may lie about them."""

from __future__ import annotations

import asyncio
import functools
import io
import re
import tempfile
from typing import IO, Any, BinaryIO, Dict, NamedTuple, Optional, cast

from .budget import UNPACKED
from .ranges import BLOCK, in_blocks

SCHEMES = ("http://", "https://")
_LISTING = 1 << 26
"""The most bytes of a page that lists a folder."""
_PART = 1 << 16
_SECONDS, _SILENT = 3600, 60
"""How long an answer may take, and a server that gives nothing."""
_RANGE = re.compile(r"bytes (\d{1,18})-(\d{1,18})/(\d{1,18})")


async def client(**words: Any) -> Any:
    """A session that follows no redirect to another scheme or host, and reads no endless page."""
    import aiohttp

    watch = aiohttp.TraceConfig()
    watch.on_request_redirect.append(_on_redirect)
    limits = aiohttp.ClientTimeout(total=_SECONDS, sock_connect=_SILENT, sock_read=_SILENT)
    ours = {"response_class": _response(), "trace_configs": [watch]}
    return aiohttp.ClientSession(**{"timeout": limits, **words, **ours})


async def _on_redirect(_session: Any, _context: Any, asked: Any) -> None:
    headers, here = asked.response.headers, asked.response.url
    there = here.join(type(here)(headers.get("Location") or headers.get("URI") or ""))
    if (there.scheme, there.host, there.port) != (here.scheme, here.host, here.port):
        place = f"{there.scheme}://{there.host}:{there.port}"
        raise OSError(f"it redirects to {place}, which isn't the server that was named")


@functools.lru_cache(maxsize=None)
def _response() -> Any:
    import aiohttp

    async def read(response: Any) -> bytes:
        if response._body is None:
            response._body = await _body(response, _LISTING)
        return bytes(response._body)

    return type("Response", (aiohttp.ClientResponse,), {"read": read})


async def _body(response: Any, most: int, at: int = 0) -> bytes:
    """The body of an answer, which begins at this byte of the object."""
    made = io.BytesIO()
    await _copy(response, made, most, at)
    return made.getvalue()


async def _copy(response: Any, copy: IO[bytes], most: int, at: int = 0) -> None:
    import aiohttp

    size = 0
    try:
        while size <= most:
            part = await response.content.read(_PART)
            if not part:
                return
            size += copy.write(part)
    except (aiohttp.ClientError, asyncio.TimeoutError) as error:
        what = f"{type(error).__name__}: {error}"
        raise OSError(f"the server ended it at byte {at + size:,}: {what}") from None
    raise OSError(f"the server gives more than {most:,} bytes, from byte {at:,} on")


class _Answer(NamedTuple):
    """What a server answers to a request for a range."""

    file: IO[bytes]
    """The range, or the whole object."""
    is_whole: bool
    size: int = 0
    """The bytes of the whole."""
    stamp: str = ""
    """What changes whenever the object does."""


def opened(system: Any, url: str) -> BinaryIO:
    """The object at a URL: in ranges, or as a whole if the server gives no ranges."""
    asked = _Asked(system, url)
    first = asked.answer(0, BLOCK)
    if first.is_whole:
        first.file.seek(0)
        return cast(BinaryIO, first.file)
    asked.first = first
    return in_blocks(first.size, asked.fetch, first.file.read())


class _Asked:
    """The requests for an object."""

    first: Optional[_Answer] = None

    def __init__(self, system: Any, url: str) -> None:
        self._system, self._url = system, url

    def fetch(self, start: int, end: int) -> bytes:
        """The bytes from one offset up to another, of the object of the first answer."""
        answer = self.answer(start, end)
        assert self.first is not None
        if answer.is_whole:
            raise OSError(f"the server gives no range at byte {start:,}, as it did before")
        if (answer.size, answer.stamp) != (self.first.size, self.first.stamp):
            raise OSError(f"it has changed while it was read, before byte {start:,}")
        return answer.file.read()

    def answer(self, start: int, end: int) -> _Answer:
        """The answer to a request for a range."""
        import aiohttp
        from fsspec.asyn import sync

        try:
            answer: _Answer = sync(self._system.loop, self._answered, start, end)
        except (aiohttp.ClientError, asyncio.TimeoutError) as error:
            what = f"{type(error).__name__}: {error}"
            raise OSError(f"the server doesn't give byte {start:,}: {what}") from None
        return answer

    async def _answered(self, start: int, end: int) -> _Answer:
        session = await self._system.set_session()
        words: Dict[str, Any] = dict(self._system.kwargs)
        headers = {**words.pop("headers", {}), "Range": f"bytes={start}-{end - 1}"}
        headers["Accept-Encoding"] = "identity"
        url = self._system.encode_url(self._url)
        async with session.get(url, headers=headers, **words) as response:
            if response.status == 404:
                raise FileNotFoundError(f"{self._url}: the server has no such object")
            packed = response.headers.get("Content-Encoding", "identity")
            if packed != "identity":
                raise OSError("the server packs what it was asked for as it is")
            if response.status == 206:
                return await _ranged(response, start, end)
            if response.status == 200:
                return await _whole(response)
            if response.status == 416 and response.headers.get("Content-Range") == "bytes */0":
                return _Answer(io.BytesIO(), True)
            raise OSError(f"the server answers {response.status} at byte {start:,}")


async def _ranged(response: Any, start: int, end: int) -> _Answer:
    told = response.headers.get("Content-Range", "")
    found = _RANGE.fullmatch(told)
    begin, last, size = map(int, found.groups()) if found else (0, 0, 0)
    if not found or begin != start or last + 1 != min(end, size):
        raise OSError(f"the server gives the range {told[:80]!r} for bytes {start} to {end - 1}")
    data = await _body(response, last + 1 - start, start)
    if len(data) != last + 1 - start:
        at = start + len(data)
        raise OSError(f"the server gives {len(data):,} bytes of {told}, up to byte {at:,}")
    return _Answer(io.BytesIO(data), False, size, _stamp(response))


async def _whole(response: Any) -> _Answer:
    size = response.content_length
    is_small = size is not None and size <= BLOCK
    file: IO[bytes] = io.BytesIO() if is_small else tempfile.TemporaryFile()
    await _copy(response, file, UNPACKED if size is None else size)
    return _Answer(file, True)


def _stamp(response: Any) -> str:
    return " ".join(response.headers.get(name, "") for name in ("ETag", "Last-Modified"))

"""What may be asked over HTTP. Handlers, `openapi.json` and tests are made of these tables."""

from __future__ import annotations

from typing import Any, Dict, List, NamedTuple, Tuple

from .._storklocker import version as __version__
from ..scanning.report import Report
from ..scanning.words import Word

OK, NO = 200, 422
BAD, UNAUTHORIZED, FORBIDDEN, UNKNOWN, LATE_BODY, CHANGED, TOO_LARGE, ENCODED = (
    400, 401, 403, 404, 408, 412, 413, 415
)
NOT_MODIFIED, NOT_ALLOWED, BROKEN, ABSENT, BUSY, LATE = 304, 405, 500, 501, 503, 504

MEANINGS: Dict[int, str] = {
    OK: "Yes: the command of this name ends with status 0. No other answer has this status.",
    NOT_MODIFIED: "The list is the one that If-None-Match names.",
    BAD: "The body is malformed or was cut. There is no verdict.",
    UNAUTHORIZED: "The token is missing or wrong.",
    FORBIDDEN: "A browser sent it for a page (Origin).",
    UNKNOWN: "There is no list of this name, or nothing at this path.",
    NOT_ALLOWED: "The path doesn't have this method.",
    LATE_BODY: "The body took too long. There is no verdict.",
    CHANGED: "The list isn't the one that If-Match names. There is no verdict.",
    TOO_LARGE: "The body, or what it becomes, has too many bytes. There is no verdict.",
    ENCODED: "The body has a Content-Encoding. There is no verdict.",
    NO: "No: the command ends with status 1 or 2. More of the body isn't read.",
    BROKEN: "A fault of the daemon. There is no verdict.",
    ABSENT: "This package has no program `pktool`.",
    BUSY: "A worker died, no room is left, or the daemon is stopping. No verdict: ask again.",
    LATE: "Judging took too long. There is no verdict.",
}
"""What each status means."""


class Route(NamedTuple):
    """Something that may be asked."""

    method: str
    path: str
    summary: str
    answer: str
    """The name of its schema, or of a type of text."""
    statuses: Tuple[int, ...]
    """All that it is answered with."""
    has_list: bool = False
    """Whether `?list=NAME` chooses a list."""

    @property
    def name(self) -> str:
        """The name of what is asked."""
        return self.path.split("/")[1].partition(".")[0]


_ASKED = (BAD, UNAUTHORIZED, FORBIDDEN, LATE_BODY, TOO_LARGE, ENCODED, NO, BROKEN, BUSY, LATE)
_LISTED = (*_ASKED, UNKNOWN, CHANGED)
_PLAIN = (OK, UNAUTHORIZED, FORBIDDEN, BROKEN)

ROUTES = (
    Route("POST", "/check", "whether a guard with a list loads the body", "Checked",
          (OK, *_LISTED), True),
    Route("POST", "/scan", "the reports on the body under a list", "Reports",
          (OK, *_LISTED), True),
    Route("POST", "/imports", "the names that the body would import", "Imported", (OK, *_ASKED)),
    Route("POST", "/json", "the body, a plain pickle, as JSON", "application/json",
          (OK, *_ASKED, ABSENT)),
    Route("POST", "/explain", "what loading the body would do, as Python", "Explained",
          (OK, *_ASKED)),
    Route("GET", "/lists", "the lists, with their ETags", "Lists", _PLAIN),
    Route("GET", "/lists/{name}", "a list", "text/plain", (*_PLAIN, NOT_MODIFIED, UNKNOWN)),
    Route("GET", "/metrics", "counters for Prometheus", "text/plain", _PLAIN),
    Route("GET", "/healthz", "whether it answers", "Health", (OK, BROKEN, BUSY)),
    Route("GET", "/openapi.json", "this description", "application/json", _PLAIN),
)
"""All that may be asked."""

_TEXT: Dict[str, Any] = {"type": "string"}
_COUNT: Dict[str, Any] = {"type": "integer", "minimum": 0}
_TEXTS = {"type": "array", "items": _TEXT}
_REPORTS = {"$ref": "#/components/schemas/Reports"}
_WORD: Dict[str, Any] = {"enum": [word.value for word in Word]}
_KINDS: Dict[type, Any] = {str: _TEXT, int: _COUNT, list: {"type": "array"}}
_COMMON: Dict[str, Any] = {
    "status": {"enum": [0, 1, 2], "description": "The exit status of the command."},
    "lines": {**_TEXTS, "description": "What the command prints."},
    "read": {**_COUNT, "description": "How many bytes were read."},
    "reports": _REPORTS,
}
_VERDICT: Dict[str, Any] = {
    "accepted": {"type": "boolean", "description": "Whether the status of the answer is 200."},
    "verdict": _WORD,
}
_LIST: Dict[str, Any] = {"list": _TEXT, "etag": {**_TEXT, "description": "The list that judged."}}


def _object(properties: Dict[str, Any]) -> Dict[str, Any]:
    return {"type": "object", "properties": properties, "required": list(properties)}


def _schemas() -> Dict[str, Any]:
    sample = Report("", "", Word.ACCEPTED).as_dict()
    own: Dict[str, Any] = {name: _KINDS[type(value)] for name, value in sample.items()}
    own = {**own, "status": _WORD, "verdict": _WORD}
    listed = _object({"etag": _TEXT, "names": _COUNT})
    pairs = {"type": "array", "items": {"type": "array"}}
    return {
        "Checked": _object({**_VERDICT, **_COMMON, **_LIST}),
        "Imported": _object({**_COMMON, "imports": pairs}),
        "Reports": {
            "type": "array",
            "items": _object(own),
            "description": "What `storklocker scan --format json` writes.",
        },
        "Explained": {
            **_object({"version": _COUNT, "verdict": _WORD, "headline": _TEXT}),
            "description": "What `storklocker explain --format json` prints.",
        },
        "Lists": {"type": "object", "additionalProperties": listed},
        "Health": _object({"version": _TEXT, "workers": _COUNT}),
        "Fault": _object({"error": _TEXT}),
    }


def _content(answer: str) -> Dict[str, Any]:
    if "/" in answer:
        return {answer: {}}
    return {"application/json": {"schema": {"$ref": f"#/components/schemas/{answer}"}}}


def _responses(route: Route) -> Dict[str, Any]:
    made: Dict[str, Any] = {}
    for status in sorted(route.statuses):
        made[str(status)] = {"description": MEANINGS[status]}
        if status != NOT_MODIFIED:
            is_answer = status == OK or status == NO and route.name != "json"
            made[str(status)]["content"] = _content(route.answer if is_answer else "Fault")
    return made


def _parameters(route: Route) -> List[Dict[str, Any]]:
    named = [("name", "path")] if "{" in route.path else []
    if route.has_list:
        named = [("list", "query"), ("If-Match", "header")]
    elif named:
        named.append(("If-None-Match", "header"))
    return [
        {"name": name, "in": place, "required": place == "path", "schema": _TEXT}
        for name, place in named
    ]


def _operation(route: Route) -> Dict[str, Any]:
    made = {
        "summary": route.summary,
        "operationId": f"{route.name}{'One' if '{' in route.path else ''}",
        "parameters": _parameters(route),
        "responses": _responses(route),
    }
    if route.method == "POST":
        binary = {"schema": {"type": "string", "format": "binary"}}
        made["requestBody"] = {"required": True, "content": {"application/octet-stream": binary}}
    return made


def openapi() -> Dict[str, Any]:
    """The description of all that may be asked, for OpenAPI 3.0."""
    paths: Dict[str, Any] = {}
    for route in ROUTES:
        paths.setdefault(route.path, {})[route.method.lower()] = _operation(route)
    return {
        "openapi": "3.0.3",
        "info": {"title": "storklocker serve", "version": __version__},
        "paths": paths,
        "components": {
            "schemas": _schemas(),
            "securitySchemes": {"token": {"type": "http", "scheme": "bearer"}},
        },
        "security": [{}, {"token": []}],
    }

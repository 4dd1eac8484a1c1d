"""Judges the states of what Django's caches and queues hold: mails, pages, headers and reports.

Django calls attributes of some, such as the `count` of what is shown in pages and the connection of
a mail, or evaluates what they hold when they are printed. So they hold texts, numbers and lists.
"""

from __future__ import annotations

from typing import Any, Callable, Dict, Tuple

_MOST = 1 << 31
"""The greatest number of a page, or of what is on one."""
_CODINGS = (None, "utf-8", "us-ascii", "iso-8859-1")
"""The code pages of a mail: to encode in others may take the square of its length."""
_TEXTS = frozenset(
    "subject body from_email content_subtype mixed_subtype alternative_subtype".split())
_ADDRESSES = frozenset("to cc bcc reply_to".split())
_PARTS = frozenset(("attachments", "alternatives"))


def _is_text(it: Any) -> bool:
    return it is None or type(it) is str


def _is_number(it: Any) -> bool:
    return type(it) is int and 0 <= it < _MOST


def _is_row(it: Any) -> bool:
    return type(it) in (list, tuple)


def _is_in_mail(name: str, it: Any) -> bool:
    if name in _TEXTS:
        return _is_text(it)
    if name in _ADDRESSES:
        return _is_row(it) and all(type(each) is str for each in it)
    if name in _PARTS:
        return _is_row(it) and all(
            type(part) is tuple and len(part) <= 3
            and all(type(each) in (str, bytes, type(None)) for each in part) for part in it)
    if name == "extra_headers":
        return type(it) is dict and all(type(key) is str and _is_text(it[key]) for key in it)
    if name == "encoding":
        return _is_text(it) and it in _CODINGS
    return name == "connection" and it is None


def _is_of_mail(state: Any) -> bool:
    return type(state) is dict and all(
        type(name) is str and _is_in_mail(name, it) for name, it in state.items())


def _is_of_pages(state: Any) -> bool:
    """Whether these are pages of a list, with no more than it has items."""
    if type(state) is not dict or not _is_row(state.get("object_list")):
        return False
    numbers = {name: it for name, it in state.items() if name != "object_list"}
    are_known = numbers.keys() <= {
        "per_page", "orphans", "allow_empty_first_page", "count", "num_pages"}
    is_said = type(numbers.pop("allow_empty_first_page", True)) is bool
    most = len(state["object_list"]) + 1
    counts = (numbers.get(name, 0) for name in ("count", "num_pages"))
    are_small = all(map(_is_number, numbers.values())) and all(it <= most for it in counts)
    return are_known and is_said and are_small


def _is_of_page(state: Any) -> bool:
    if type(state) is not dict or state.keys() != {"object_list", "number", "paginator"}:
        return False
    kind = type(state["paginator"])
    is_of_pages = (kind.__module__, kind.__qualname__) == _PAGES
    return is_of_pages and _is_row(state["object_list"]) and _is_number(state["number"])


def _is_of_headers(state: Any) -> bool:
    """Whether the names of headers, in small letters, have the names and their values."""
    held = state.get("_store") if type(state) is dict and len(state) == 1 else None
    return type(held) is dict and all(
        type(key) is str and type(it) is tuple and len(it) == 2 and all(map(_is_plain, it))
        for key, it in held.items())


def _is_plain(it: Any) -> bool:
    return _is_text(it) or _is_number(it)


def _is_of_set(state: Any) -> bool:
    held = state.get("dict") if type(state) is dict and len(state) == 1 else None
    return type(held) is dict and all(it is None for it in held.values())


def _is_of_report(state: Any) -> bool:
    """Whether a report of Django's checks is about nothing but a text: it may ask what it is about
    for a name.
    """
    return type(state) is dict and state.keys() == {"level", "msg", "hint", "obj", "id"} and (
        _is_number(state["level"]) and all(_is_text(state[it]) for it in state if it != "level"))


_PAGES = ("django.core.paginator", "Paginator")
STATES: Dict[Tuple[str, str], Callable[[Any], bool]] = {
    _PAGES: _is_of_pages,
    ("django.core.paginator", "Page"): _is_of_page,
    ("django.http.request", "HttpHeaders"): _is_of_headers,
    ("django.utils.datastructures", "CaseInsensitiveMapping"): _is_of_headers,
    ("django.utils.datastructures", "OrderedSet"): _is_of_set,
    **{("django.core.mail.message", it): _is_of_mail
       for it in ("EmailMessage", "EmailMultiAlternatives")},
    **{("django.core.checks.messages", it): _is_of_report
       for it in ("CheckMessage", "Critical", "Debug", "Error", "Info", "Warning")},
}
"""What judges states, by the name of a class."""

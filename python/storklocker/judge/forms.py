"""The ways in which a pickle hands an argument to a name."""

from __future__ import annotations

from typing import Iterator, Tuple

from . import shapes


def forms(called: bytes, given: bytes) -> Iterator[Tuple[str, bytes]]:
    """Pickles without PROTO that hand an argument to a name, each with what it does."""
    for count in (1, 2, 3, 5):
        yield f"called with {count}", called + b"(" + given * count + b"tR."
    for k, other in enumerate((b"K\1", shapes.text("a"), b"]")):
        yield f"called after {k}", called + b"(" + other + given + b"tR."
    yield "called before a text", called + b"(" + given + shapes.text("a") + b"tR."
    yield "made", called + b"(" + given + b"t\x81."
    yield "called with keywords", called + b"(" + given + b"t}\x92."
    yield "made by OBJ", b"(" + called + given + b"o."
    yield "items put", called + b")R(" + given + b"e."
    yield "members put", called + b")\x81(" + given + b"\x90."
    yield "pairs put", called + b")R(" + given + b"K\0K\0" + given + b"u."
    yield "built", called + b")\x81" + given + b"b."
    yield "built after a call", called + b")R" + given + b"b."
    yield "built with slots", called + b")\x81" + given + given + b"\x86b."
    yield "built with a dict", called + b")\x81}" + shapes.text("state") + given + b"sb."

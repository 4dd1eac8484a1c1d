"""Messages in a queue of AMQP: each is got without an acknowledgement, and goes back to its place
when the channel closes.

Meanwhile no consumer gets it. The server counts a delivery, which a quorum queue may limit.
"""

from __future__ import annotations

import contextlib
from typing import Any, Iterator, Tuple, Type

from .file import File
from .queues import SECONDS, Asked, spelled

_COUNTED = "x-delivery-count"
"""The header of a message of a quorum queue that was delivered before."""


def messages_in_queue(asked: Asked) -> Iterator[File]:
    """The messages that are in a queue when the scan begins."""
    kombu = asked.package("kombu")
    queue = asked.word("queue")
    if not queue:
        raise OSError(f"{asked.shown} names no queue: {asked.shown}?queue=NAME")
    kinds: Tuple[Type[Exception], ...] = (OSError,)
    try:
        with kombu.Connection(asked.url, connect_timeout=SECONDS) as connection:
            kinds = (*connection.connection_errors, *connection.channel_errors)
            with contextlib.closing(connection.channel()) as channel:
                channel.auto_decode = False  # (a body is what its readers get)
                yield from _messages(asked, channel, queue)
    except (*kinds, kombu.exceptions.KombuError, ValueError) as error:
        raise OSError(f"{asked.shown} can't be read: {type(error).__name__}: {error}") from None


def _messages(asked: Asked, channel: Any, queue: str) -> Iterator[File]:
    place = spelled(queue.encode())
    count = channel.queue_declare(queue, passive=True).message_count
    for number in range(count):
        message = channel.basic_get(queue, no_ack=False)
        if message is None:  # (consumers take some)
            return
        headers = message.properties.get("application_headers") or {}
        if _COUNTED in headers:
            yield asked.unread(place, "a quorum queue counts what reads it: the rest was not read")
            return
        body = message.body
        yield asked.value(f"{place}!{number}", body.encode() if isinstance(body, str) else body)

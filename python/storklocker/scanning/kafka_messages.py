"""Messages of a topic of Kafka, which stay there; no offset is committed."""

from __future__ import annotations

import contextlib
from typing import TYPE_CHECKING, Any, Dict, Iterator, Tuple
from urllib.parse import urlsplit

from .file import File
from .queues import SECONDS, Asked, is_plain, spelled

if TYPE_CHECKING:
    from .files import Files

_AT_ONCE = 100
"""The most messages that are got at once."""


def messages_of_topic(asked: Asked, files: Files) -> Iterator[File]:
    """The messages that a topic has when the scan begins, but for those that were read before."""
    kafka = asked.package("kafka")
    parts = urlsplit(asked.url)
    topic = parts.path.strip("/")
    if not topic or "/" in topic:
        raise OSError(f"{asked.shown} names no topic: kafka://server:9092/topic")
    settings = {"auto_offset_reset": "none", "enable_auto_commit": False, "group_id": None}
    try:
        consumer = kafka.KafkaConsumer(bootstrap_servers=parts.netloc, **settings)
        with contextlib.closing(consumer):
            numbers = consumer.partitions_for_topic(topic)
            if not numbers:
                raise OSError(f"{asked.shown}: there is no such topic")
            for number in sorted(numbers):
                partition = kafka.TopicPartition(topic, number)
                yield from _Partition(asked, consumer, partition, files.positions).messages()
    except (kafka.errors.KafkaError, AssertionError, ValueError) as error:
        raise OSError(f"{asked.shown} can't be read: {type(error).__name__}: {error}") from None


class _Partition:
    """Reads a partition from where it was read before up to its end."""

    def __init__(
        self, asked: Asked, consumer: Any, partition: Any, positions: Dict[str, int]
    ) -> None:
        self._asked, self._consumer, self._partition = asked, consumer, partition
        self._positions, self._name = positions, f"{asked.shown} {partition.partition}"

    def messages(self) -> Iterator[File]:
        """The messages, each with its key and its headers where these aren't plain texts."""
        consumer, it = self._consumer, self._partition
        consumer.assign([it])
        [first] = consumer.beginning_offsets([it]).values()
        [end] = consumer.end_offsets([it]).values()
        consumer.seek(it, max(first, self._positions.get(self._name, 0)))
        while consumer.position(it) < end:
            found = consumer.poll(1000 * SECONDS, max_records=_AT_ONCE).get(it, [])
            if not found and consumer.position(it) < end:
                at = consumer.position(it)
                raise OSError(f"{self._name}: nothing came from offset {at} on in {SECONDS} s")
            for message in found:
                for name, value in _values(message):
                    yield self._asked.value(f"{it.partition}!{message.offset}{name}", value)
        self._positions[self._name] = max(first, end)


def _values(message: Any) -> Iterator[Tuple[str, bytes]]:
    yield "", message.value or b""
    if message.key is not None and not is_plain(message.key):
        yield "!the key", message.key
    for name, value in message.headers or ():
        if value is not None and not is_plain(value):
            yield f"!{spelled(name.encode())}", value

"""What Celery's workers do with a message that the guard refuses."""

from __future__ import annotations

import functools
from typing import Any, Dict, Optional

from .._refusal import CONTEXT
from ._celery_results import failure

_FRONT = 1024
"""The bytes of a message of protocol 1 in which its task and id are looked for."""

_MISSHAPEN = (TypeError, AttributeError, KeyError, ValueError)
"""What Celery raises for a message that is loaded and has another shape than a task's."""


def guard_workers(app: Any) -> None:
    """Adds a step to the application's workers, in which their consumer is guarded."""
    from celery.bootsteps import StartStopStep

    class Guarding(StartStopStep):  # type: ignore[misc]
        """Runs before the consumer reads a message."""

        label = "Guard"

        def __init__(self, consumer: Any, **named: Any) -> None:
            super().__init__(consumer, **named)
            _guard_consumer(consumer)

    app.steps["consumer"].add(Guarding)


def _guard_consumer(consumer: Any) -> None:
    """Replaces what the consumer does with messages. Celery logs bodies; here they are hidden."""
    make, unknown = consumer.create_task_handler, consumer.on_unknown_task
    for word in ("on_unknown_message", "on_invalid_task"):
        setattr(consumer, word, _hiding(getattr(consumer, word)))
    refuse = functools.partial(_refuse, consumer)
    consumer.on_decode_error = refuse

    def on_unknown_task(body: Any, message: Any, error: Exception) -> Any:
        if "task" in message.headers and "id" not in message.headers:
            return consumer.on_unknown_message(None, message)  # Celery would load it for its id
        message.body = _hidden(message)
        return unknown(None, message, error)

    def create_task_handler(*given: Any, **named: Any) -> Any:
        handle = make(*given, **named)

        def on_task_received(message: Any) -> Any:
            token = CONTEXT.set(_about(message))
            try:
                return handle(message)
            except _MISSHAPEN as error:
                if message.acknowledged:
                    raise
                return refuse(message, TypeError(f"it isn't a task: {type(error).__name__}"))
            finally:
                CONTEXT.reset(token)

        return on_task_received

    consumer.on_unknown_task = on_unknown_task
    consumer.create_task_handler = create_task_handler


def _hiding(call: Any) -> Any:
    """A callback for a message that isn't a task, without its body in the log."""

    def hiding(body: Any, message: Any, *given: Any) -> Any:
        message.body = _hidden(message)
        return call(None, message, *given)

    return hiding


def _hidden(message: Any) -> bytes:
    return f"<{len(message.body or b'')} bytes>".encode()


def _refuse(consumer: Any, message: Any, error: Exception) -> None:
    """Rejects a message that can't be loaded, and stores a failure for its task."""
    from celery import signals
    from celery.utils.log import get_logger

    logger, about = get_logger("celery.worker.consumer"), _about(message)
    logger.error("Task %r with id %r was refused: %s", about["task"], about["id"], error)
    message.body = _hidden(message)
    kept = getattr(message.channel, "no_ack_consumers", None) or ()
    if message.delivery_info.get("consumer_tag") not in kept:
        message.reject_log_error(logger, consumer.connection_errors)
    signals.task_rejected.send(sender=consumer, message=message, exc=error)
    if about["id"] is not None:
        try:
            _store(consumer.app, message, about, error)
        except Exception:  # the message is dealt with, even if the backend is out of reach
            logger.exception("The failure of a refused message could not be stored")


def _store(app: Any, message: Any, about: Dict[str, Any], error: Exception) -> None:
    from celery.app.task import Context

    task = app.tasks.get(about["task"])
    if message.headers.get("ignore_result") or (task is not None and task.ignore_result):
        return
    request = Context(
        id=about["id"],
        task=about["task"],
        reply_to=message.properties.get("reply_to"),
        correlation_id=message.properties.get("correlation_id"),
        delivery_info=message.delivery_info,
    )
    # A dict, because the client's list may not have the class of the exception.
    words = failure(f"the message was refused: {error}")
    app.backend.store_result(about["id"], words, "FAILURE", request=request)


def _about(message: Any) -> Dict[str, Any]:
    """The task and the id that a message names, which nothing vouches for."""
    headers = message.headers or {}
    task, name = headers.get("task"), headers.get("id")
    if "task" not in headers:  # protocol 1 has them in the pickle
        found = _texts_after(("task", "id"), message.body)
        task = found.get("task")
        name = message.properties.get("correlation_id") or found.get("id")
    return {
        "task": task if isinstance(task, str) else None,
        "id": name if isinstance(name, str) else None,
    }


def _texts_after(keys: Any, data: Any) -> Dict[str, str]:
    """The texts that follow these keys at the front of a pickle, which isn't loaded."""
    import pickletools

    found: Dict[str, str] = {}
    last: Optional[str] = None
    try:
        for opcode, argument, _ in pickletools.genops(bytes(data[:_FRONT])):
            if isinstance(argument, str) and "GLOBAL" not in opcode.name:
                if last is not None and last in keys:
                    found.setdefault(last, argument)
                last = argument
            elif opcode.name not in ("MEMOIZE", "BINPUT", "LONG_BINPUT", "PUT"):
                last = None
    except Exception:  # it is cut, or no pickle
        pass
    return found

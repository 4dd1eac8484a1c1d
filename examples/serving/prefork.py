"""A prefork server that loads pickles under a guard, with `/metrics` that adds up its children.

    PROMETHEUS_MULTIPROC_DIR=$(mktemp -d) python3 prefork.py 8000
"""

import os
import signal
import sys
from http import HTTPStatus
from wsgiref.simple_server import make_server

import storklocker
from prometheus_client import CollectorRegistry, generate_latest, multiprocess
from storklocker.metrics import SharedCountingGuard

GUARD = SharedCountingGuard(storklocker.AllowList([("collections", "OrderedDict")]))
CHILDREN = 4


def application(environ, start_response):
    """Loads the body of a request, or gives the counts of all children."""
    if environ["PATH_INFO"] == "/metrics":
        registry = CollectorRegistry()
        multiprocess.MultiProcessCollector(registry)
        return answer(start_response, HTTPStatus.OK, generate_latest(registry))
    body = environ["wsgi.input"].read(int(environ.get("CONTENT_LENGTH") or 0))
    try:
        loaded = GUARD.loads(body)
    except storklocker.Refused as error:
        return answer(start_response, HTTPStatus.UNPROCESSABLE_ENTITY, str(error).encode())
    return answer(start_response, HTTPStatus.OK, type(loaded).__name__.encode())


def answer(start_response, status, text):
    start_response(f"{status.value} {status.phrase}", [("Content-Type", "text/plain")])
    return [text]


def main():
    server = make_server("127.0.0.1", int(sys.argv[1]), application)
    children = []
    for _ in range(CHILDREN):
        child = os.fork()
        if not child:
            server.serve_forever()
        children.append(child)
    signal.signal(signal.SIGTERM, lambda *_: [os.kill(it, signal.SIGTERM) for it in children])
    for child in children:
        os.waitpid(child, 0)
        multiprocess.mark_process_dead(child)


if __name__ == "__main__":
    main()

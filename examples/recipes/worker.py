"""A queue's worker that loads jobs made by strangers."""

import logging
import pickle
import queue
import sys
from typing import Any, Callable

import storklocker  # type: ignore[import]

PERMITTED = storklocker.AllowList({"collections": ["OrderedDict"], "datetime": ["datetime"]})
GUARD = storklocker.Guard(PERMITTED)


def work(jobs: "queue.Queue[bytes]", do: Callable[[Any], None]) -> None:
    """Does each job of the queue. One that is refused is never loaded."""
    while not jobs.empty():
        data = jobs.get()
        try:
            job = GUARD.loads(data)
        except storklocker.Refused as refusal:
            logging.warning("a job was refused: %s", refusal)
        except Exception as error:  # a call of an accepted pickle may raise anything
            logging.warning("a job was not loaded: %s", type(error).__name__)
        else:
            do(job)


if __name__ == "__main__":
    logging.basicConfig(stream=sys.stdout, format="%(message)s")
    waiting: "queue.Queue[bytes]" = queue.Queue()
    waiting.put(pickle.dumps({"to": "a@b.example", "copies": 2}, 4))
    waiting.put(b"cos\nsystem\n(S'echo gone'\ntR.")
    waiting.put(b"N)R.")
    waiting.put(b"cdatetime\ndatetime\n(Vno\\u000adate\ntR.")
    waiting.put(pickle.dumps(["last"], 4) + b"and more")
    waiting.put(pickle.dumps(["last"], 4))
    work(waiting, print)

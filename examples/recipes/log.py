"""Writes a log of events to standard output, one pickle each: log.py [tampered]

With `tampered`, the second event is a pickle that runs a command.
"""

import datetime
import os
import pickle
import sys
from typing import Any, Iterator, Tuple


class Command:
    def __reduce__(self) -> Tuple[Any, ...]:
        return (os.system, ("echo gone",))


def events() -> Iterator[Any]:
    at = datetime.datetime(2026, 1, 2, 3, 4, 5)
    yield {"at": at, "event": "started", "by": "worker 1"}
    yield Command() if sys.argv[1:] == ["tampered"] else {"at": at, "event": "waited", "for": 2.5}
    yield {"at": at, "event": "ended", "status": 0}


if __name__ == "__main__":
    for event in events():
        pickle.dump(event, sys.stdout.buffer, protocol=4)

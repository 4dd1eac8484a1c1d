"""Runs long tests in several processes, and says on standard error how far they are."""
import sys
import time
from concurrent import futures
from typing import Callable, Iterator, Optional, Sequence, TypeVar

Task = TypeVar("Task")
Result = TypeVar("Result")

# Seconds between two lines.
PAUSE = 10.0


def results_of(
    work: Callable[[Task], Result],
    tasks: Sequence[Task],
    what: str,
    jobs: int,
    begin: Optional[Callable[[], None]] = None,
) -> Iterator[Result]:
    """What each task comes to, as it ends. `begin` is called in each of the processes first.

    Raises BrokenProcessPool if one of them is killed. (A `multiprocessing.Pool` would wait for it.)
    """
    begun = said = time.monotonic()
    with futures.ProcessPoolExecutor(jobs, initializer=begin) as pool:
        left = {pool.submit(work, task) for task in tasks}
        try:
            while left:
                done, left = futures.wait(left, PAUSE, futures.FIRST_COMPLETED)
                yield from (it.result() for it in done)
                now = time.monotonic()
                if now - said >= PAUSE:
                    told = f"{len(tasks) - len(left)} of {len(tasks)} {what} in {now - begun:.0f} s"
                    print(told, file=sys.stderr, flush=True)
                    said = now
        finally:
            for it in left:
                it.cancel()

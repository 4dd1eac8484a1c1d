#!/usr/bin/env python3
"""What a guard that is installed in the whole interpreter costs: microseconds a load, the best of
several rounds, beside a guarded load and a bare one. Without and with imports in the pickle.
"""

import collections
import pickle
import sys
import time
import timeit
from pathlib import Path

sys.path.insert(0, str(Path(__file__).resolve().parent.parent / "python"))
import storklocker  # noqa: E402

PLAIN = pickle.dumps({"id": 7, "tags": ["a", "b"], "done": False})
IMPORTING = pickle.dumps([collections.OrderedDict(a=1)] * 3)
GUARD = storklocker.Guard(storklocker.AllowList({"collections": ["OrderedDict"]}))
BARE = [pickle.loads]  # a name of this module would be replaced
MOST = 1.5  # microseconds that a load may take more than the guard's


def microseconds(load, data, count=20_000):
    """The processor time of a load."""
    rounds = timeit.repeat(lambda: load(data), number=count, repeat=9, timer=time.process_time)
    return min(rounds) / count * 1e6


def main():
    print(f"{'':24} {'plain':>8} {'imports':>8}")
    loads = {"bare": BARE[0], "guard.loads": GUARD.loads}
    rows = {}
    for name, load in loads.items():
        rows[name] = [microseconds(load, it) for it in (PLAIN, IMPORTING)]
    with storklocker.installed(GUARD):
        load = pickle.loads
        rows["installed"] = [microseconds(load, it) for it in (PLAIN, IMPORTING)]
        with storklocker.trusted():
            rows["installed, trusted"] = [microseconds(load, it) for it in (PLAIN, IMPORTING)]
    for name, found in rows.items():
        print(f"{name:24} {found[0]:8.2f} {found[1]:8.2f}")
    more = max(a - b for a, b in zip(rows["installed"], rows["guard.loads"]))
    print(f"a load takes {more:.2f} microseconds more than the guard's (at most {MOST})")
    return 1 if more > MOST else 0


if __name__ == "__main__":
    sys.exit(main())

"""Few of the objects that libraries make count in a scan without a list, and only for a reason."""

import collections
import importlib.util
import json
import subprocess
import sys
import unittest

from common import IMPORTED_FROM, PYTHON

sys.path.append(str(PYTHON / "catalogue"))
import walking  # noqa: E402

MOST = 0.02
"""The share of honest pickles that may count."""
LEAST = {"celery": 400, "django": 400, "numpy": 500, "pandas": 800, "scipy": 500, "sklearn": 1000,
         "standard": 1000}
"""The pickles of each library that there are at least."""
NEEDED = {"standard": "sys"}
"""What a library can't be tried without, where that isn't itself."""
BY_GETATTR = (3, 11) <= sys.version_info < (3, 11, 4)
"""This Python pickles members of enums by getattr, which counts."""
ASKING = f"""
import json, pickle, sys, warnings
warnings.simplefilter("ignore")
sys.path[:0] = [{str(PYTHON / "tests")!r}]
import honest_objects, storklocker
from storklocker.scanning.dangers import import_findings
for counts, line, data in honest_objects.pickles(sys.argv[1]):
    try:
        pairs = storklocker.imports(data, fix_imports=False)
    except pickle.UnpicklingError:  # (protocol 0 has lines that are too long for its reader)
        continue
    found = [it.name for it in import_findings({{tuple(it) for it in pairs}})]
    print(json.dumps([counts, line, found]))
"""


def asked(library):
    """Of each pickle of a library: whether it is to count, its line, and what counts in it."""
    ran = subprocess.run(
        [sys.executable, "-W", "ignore", "-c", ASKING, library], stdout=subprocess.PIPE,
        stderr=subprocess.DEVNULL, encoding="utf-8", check=True,
        env={"PYTHONPATH": str(IMPORTED_FROM), "PYTHONDONTWRITEBYTECODE": "1", "PATH": ""},
    )
    return [json.loads(line) for line in ran.stdout.splitlines() if line.startswith("[")]


def is_told(name):
    return not (BY_GETATTR and name.endswith(".getattr"))


class Honest(unittest.TestCase):
    def few_count(self, library):
        if importlib.util.find_spec(NEEDED.get(library, library)) is None:
            self.skipTest(f"there is no {library}")
        if not walking.is_catalogued(library):
            self.skipTest(f"{library} {walking.version_of(library)} has other names")
        rows = asked(library)
        calm = [list(filter(is_told, found)) for counts, _, found in rows if not counts]
        self.assertGreater(len(calm), LEAST[library])
        named = collections.Counter(name for found in calm for name in found)
        self.assertLessEqual(sum(map(bool, calm)), len(calm) * MOST, named)
        told = [found for counts, _, found in rows if counts]
        self.assertTrue(not told or any(told), library)


def _test_of(library):
    return lambda self: self.few_count(library)


for _library in LEAST:
    setattr(Honest, f"test_{_library}", _test_of(_library))


if __name__ == "__main__":
    unittest.main()

"""Lists that let a pickle have what hostile ones are made of."""

import sys

from storklocker import AllowList, imports
from storklocker.judge.shapes import ARRAYS, FRAMES, LISTED
from storklocker.scanning.dangers import danger_of


def of_here(allow, pickles):
    """A list with the names of these pickles too: another version of a library has others."""
    pairs = {tuple(pair) for data in pickles for pair in imports(data)}
    return allow | AllowList([pair for pair in pairs if pair not in allow and not danger_of(pair)])


def widened(allow):
    """A list with the names that values take."""
    rows = [LISTED, ARRAYS] + [FRAMES] * ("pandas" in sys.modules)
    pairs = {pair for row in rows for named, _ in row.values() for pair in named}
    return allow | AllowList([pair for pair in pairs if pair not in allow])

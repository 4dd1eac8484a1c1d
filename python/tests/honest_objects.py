"""Objects that libraries make and programs pickle, by library: see the texts in honest_objects/.

In a text, a line that imports, defines or assigns is run, a line with a star gives many objects,
and any other gives one. A line for which this version of the library lacks something is left out.
"""

import pickle
import sys
import warnings
from pathlib import Path

TEXTS = Path(__file__).resolve().with_suffix("")
PYTHON = TEXTS.parents[1]
sys.path[:0] = [str(PYTHON / "lists"), str(PYTHON / "service_tests")]

COUNTING = "# These count:"
"""Below it stand objects whose names do more than hold data: a scan has to say so."""
_RUN = ("import ", "from ", "def ")


def made(library):
    """The objects of a library: whether they count, the line that makes them, and the object."""
    names, counts = {}, False
    for line in (TEXTS / f"{library}.txt").read_text(encoding="utf-8").splitlines():
        counts = counts or line.startswith(COUNTING)
        with warnings.catch_warnings():
            warnings.simplefilter("ignore")
            yield from ((counts, line, it) for it in _values(line, names))


def _values(line, names):
    try:
        if line.startswith(_RUN) or " = " in line and line.split(" = ")[0].isidentifier():
            exec(line, names)
        elif line.startswith("*"):
            return list(eval(line[1:], names))
        elif line and not line.startswith("#"):
            return [eval(line, names)]
    except Exception:  # (whatever a library raises that lacks something)
        pass
    return []


def pickles(library):
    """The pickles of these objects in each protocol that can write them, with what `made` says."""
    for counts, line, value in made(library):
        for protocol in range(6):
            try:
                yield counts, line, pickle.dumps(value, protocol)
            except Exception:  # (whatever a class raises whose objects have no such pickle)
                continue

#!/usr/bin/env python3
"""Gives the inputs that a fuzzer has found (../corpus) to the package and to CPython's readers.

After a yes, no reader asks for an unlisted name, or wants what isn't there. Where a reader asks for
one, `scan` finds something, in at most two seconds. The last line counts the inputs.
"""

import io
import pathlib
import pickle
import resource
import sys
import time
import warnings
import zipfile

HERE = pathlib.Path(__file__).resolve().parent
sys.path.append(str(HERE.parents[1] / "python"))  # unless PYTHONPATH names another
sys.path.append(str(HERE.parent / "readers"))

import storklocker  # noqa: E402
from listed import may_run  # noqa: E402
from storklocker.scanning.judging import Question, reports_of  # noqa: E402

LISTED = [
    ("_codecs", "encode"), ("collections", "OrderedDict"), ("datetime", "datetime"), ("m", "f")
]
ALLOW = storklocker.AllowList(LISTED)
FREE = storklocker.Limits(levels=None, weight=None, work=None)
SECONDS, MEMORY = 2, 1 << 30
"""What a scan may take, and all of this program: a reader takes 16 bytes for each memo number."""
NEVER = (IndexError, EOFError, KeyError, AssertionError)
"""What no reader raises at an accepted pickle, whatever its objects are."""


class Any(dict):
    """What stands for every import, and for what it makes."""

    def __init__(self, *_, **__):
        super().__init__()

    __call__ = __setstate__ = append = extend = add = update = lambda self, *_, **__: Any()


def reader(base):
    """A reader that imports nothing, and tells what it would import."""

    class Reader(base):
        asked = None

        def find_class(self, module, name):
            self.asked.append((module, name))
            return Any

        def persistent_load(self, name):
            return Any()

    return Reader


READERS = [reader(pickle.Unpickler), reader(pickle._Unpickler)]


def asked_by(base, data):
    """What a reader asks for, and what it raises."""
    made = base(io.BytesIO(data), encoding="latin-1")
    made.asked = []
    try:
        made.load()
    except Exception as error:  # of what the pickle makes of the stand-ins
        return made.asked, error
    return made.asked, None


def faults_of(data):
    """What is wrong with the answers about an input."""
    is_accepted = bool(storklocker.check(data, ALLOW, limits=FREE, build="any"))
    if storklocker.check(data, ALLOW) and not is_accepted:
        yield "accepted within limits on costs, and refused without"
    began = time.process_time()
    reports = list(reports_of("input", io.BytesIO(data), Question(ALLOW)))
    if time.process_time() - began > SECONDS:
        yield "scan takes too long"
    is_found = any(report.is_finding for report in reports)
    for base in READERS:
        asked, error = asked_by(base, data)
        off = [pair for pair in asked if pair not in LISTED]
        if is_accepted and (off or isinstance(error, NEVER)):
            yield f"accepted, and a reader asks for {off} or raises {error!r}"
        if not is_found and off and may_run(*off[0]):  # or else it goes no further
            yield f"scan finds nothing, and a reader asks for {off}"


def main():
    warnings.simplefilter("ignore")  # of texts with odd escapes
    resource.setrlimit(resource.RLIMIT_AS, (MEMORY, MEMORY))
    passed = failed = 0
    with zipfile.ZipFile(HERE.parent / "corpus" / "check.zip") as archive:
        for name in archive.namelist():
            faults = list(faults_of(archive.read(name)))
            passed, failed = passed + (not faults), failed + bool(faults)
            for fault in faults:
                print(f"failed: {name}: {fault}")
    print(f"{passed} passed, {failed} failed")
    return 0 if not failed and passed else 1


if __name__ == "__main__":
    sys.exit(main())

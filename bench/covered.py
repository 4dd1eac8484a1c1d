#!/usr/bin/env python3
"""Loads what libraries write under the ready-made lists, in each protocol that can write it, and
counts the lines of `python/tests/honest_objects/` of which all objects load as under `pickle`.

    PYTHONPATH=$PWD/python python3 bench/covered.py [CORPUS ..] [--failing]
"""

import argparse
import functools
import gzip
import io
import pickle
import re
import sys
import warnings
from pathlib import Path

sys.path[:0] = [str(Path(__file__).resolve().parent.parent / "python" / "tests")]

import honest_objects  # noqa: E402
from storklocker import AllowList, Guard  # noqa: E402

CORPORA = {
    "numpy": ("numpy",),
    "pandas": ("pandas",),
    "sklearn": ("sklearn",),
    "torch": ("torch", "torch-nn"),
    "packages": ("packages", "standard-types", "datetime", "pathlib", "enum", "exceptions"),
    "celery": ("celery", "exceptions"),
    "django": ("django", "exceptions"),
}
"""The lists under which the objects of each text are loaded."""
_ADDRESS = re.compile(" at 0x[0-9a-f]+")


def pickled(value, protocol):
    return [(pickle.dumps(value, protocol), pickle.loads)]


def of_joblib(value, protocol):
    """What joblib writes, as it is and compressed, beside what pickle writes, as it is and not."""
    import joblib

    plain, packed = io.BytesIO(), io.BytesIO()
    joblib.dump(value, plain, protocol=protocol)
    joblib.dump(value, packed, compress=3, protocol=protocol)
    yield from ((it.getvalue(), joblib_loads) for it in (plain, packed))
    yield from pickled(value, protocol)
    yield gzip.compress(pickle.dumps(value, protocol)), gzip_loads


def gzip_loads(data):
    return pickle.loads(gzip.decompress(data))


def joblib_loads(data):
    import joblib

    return joblib.load(io.BytesIO(data))


def of_torch(value, protocol):
    import torch

    for is_zip in (True, False):
        file = io.BytesIO()
        torch.save(value, file, pickle_protocol=protocol, _use_new_zipfile_serialization=is_zip)
        yield file.getvalue(), lambda data: torch.load(io.BytesIO(data))


def loader(corpus, guard):
    """What loads the bytes of a corpus, as those who use a list do."""
    if corpus == "torch":
        from storklocker.contrib.torch import load_torch

        return functools.partial(load_torch, guard=guard)
    if corpus != "sklearn":
        return guard.loads
    from storklocker.contrib.joblib import load_joblib

    def load(data):
        if data[:2] == b"\x1f\x8b":
            return guard.loads(gzip.decompress(data))
        return load_joblib(data, guard)

    return load


def is_same(one, other):
    """Whether a guard gives what the reader gives: types, and what the objects write or show."""
    if type(one) is not type(other):
        return False
    try:
        if pickle.dumps(one, 4) == pickle.dumps(other, 4):
            return True
    except Exception:  # (what holds a function that has no name)
        pass
    return shown(one) == shown(other)


def shown(it):
    held = vars(it) if type(it).__repr__ is object.__repr__ and hasattr(it, "__dict__") else it
    return _ADDRESS.sub("", repr(held))


def told(corpus, load, value):
    """The first failure of an object, or an empty text; None if nothing can write it."""
    write, tried = {"torch": of_torch, "sklearn": of_joblib}.get(corpus, pickled), 0
    for protocol in range(6):
        try:
            rows = [(data, plain(data)) for data, plain in write(value, protocol)]
        except Exception:  # (whatever a class raises whose objects have no such pickle)
            continue
        for data, wanted in rows:
            tried += 1
            try:
                found = load(data)
            except Exception as error:
                return f"protocol {protocol}: {type(error).__name__}: {error}"
            if not is_same(found, wanted):
                return f"protocol {protocol}: it is another: {found!r:.80} for {wanted!r:.80}"
    return "" if tried else None


def run(corpus, is_failing):
    """The lines of a corpus that load, and all that have objects."""
    load = loader(corpus, Guard(AllowList.shipped(*CORPORA[corpus])))
    lines = {}
    for _, line, value in honest_objects.made(corpus):
        said = told(corpus, load, value)
        if said is not None:
            lines.setdefault(line, []).append(said)
    for line, said in lines.items():
        if is_failing and any(said):
            print(f"    {line}\n        {next(filter(None, said))[:400]}")
    return sum(not any(said) for said in lines.values()), len(lines)


def main():
    parser = argparse.ArgumentParser(description=__doc__.partition("\n\n")[0])
    parser.add_argument("corpora", nargs="*", metavar="CORPUS")
    parser.add_argument("--failing", action="store_true", help="tell why the others don't load")
    asked = parser.parse_args()
    warnings.simplefilter("ignore")
    for corpus in asked.corpora or CORPORA:
        loaded, many = run(corpus, asked.failing)
        print(f"{corpus}: {loaded} of {many}", flush=True)
    return 0


if __name__ == "__main__":
    sys.exit(main())

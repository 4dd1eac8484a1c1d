"""The lists to begin with, tried against the libraries themselves."""

import io
import pickle
import warnings

import storklocker
import values
from storklocker import lists

NEEDS = ("numpy", "pandas", "sklearn")


class Measuring(pickle.Pickler):
    """Writes each type of an array whole: which arrays share one isn't the same with a guard."""

    def persistent_id(self, it):
        kind = f"{type(it).__module__}.{type(it).__name__}"
        return repr(it) if kind.startswith("numpy.dtype") else None


def length(value):
    """The length of a pickle, of a protocol in which the bytes between an array's fields are as
    long as others.
    """
    file = io.BytesIO()
    Measuring(file, 4).dump(value)
    return len(file.getvalue())


def seen(value):
    """What a value is: the lengths of its parts' pickles, since a guard copies an array that two
    parts share.
    It leaves out what pandas has cached, so that a value of pandas is what it shows.
    """
    if type(value).__module__.partition(".")[0] == "pandas":
        return repr(value), repr(getattr(value, "dtypes", None))
    held = None if isinstance(value, type) else getattr(value, "__dict__", None)
    parts = held or {"": value}
    return {name: length(part) for name, part in parts.items()}


def run():
    """Every object, in each protocol, is accepted under its list and loads as it was."""
    warnings.simplefilter("ignore")
    for name, make in values.LISTS.items():
        allow = getattr(lists, name)
        guard = storklocker.Guard(allow, fix_imports=True)
        for number, value in enumerate(make()):
            for protocol in range(6):
                data = pickle.dumps(value, protocol)
                told = (name, number, protocol)
                verdict = storklocker.check(data, allow)
                assert verdict, (told, str(verdict))
                loaded = guard.loads(data)
                assert type(loaded) is type(value), told
                assert seen(loaded) == seen(pickle.loads(data)), told
    together = lists.STANDARD_TYPES | lists.DATETIME | lists.COLLECTIONS
    assert len(together) > len(lists.STANDARD_TYPES)

"""Classes and functions of a program, which lists may have, and what its process shares."""

import collections
import enum
import functools
import http
import weakref


class Job:
    """A class without anything."""

    def run(self):
        return "run"


class Slots:
    __slots__ = ("a", "b")


class Both(Slots):
    """Has attributes of both kinds."""


class Color(enum.Enum):
    RED = 1

    def __init__(self, value):
        self.label = "red"


class Access(enum.Flag):
    READ = 1
    WRITE = 2


class One:
    """A class with one object."""

    _one = None

    def __new__(cls):
        if cls._one is None:
            cls._one = super().__new__(cls)
            cls._one.label = "one"
        return cls._one

    def __reduce__(self):
        return (One, ())


class Cached(type):
    made = {}

    def __call__(cls, *given):
        if given not in cls.made:
            cls.made[given] = super().__call__(*given)
        return cls.made[given]


class Zone(metaclass=Cached):
    """A class whose call gives the same object for the same name."""

    def __init__(self, name):
        self.label = name

    def __reduce__(self):
        return (Zone, (self.label,))


class Weak:
    """A class that knows its objects as long as others do."""

    known = weakref.WeakValueDictionary()

    def __new__(cls, name):
        found = cls.known.get(name)
        if found is None:
            found = cls.known[name] = super().__new__(cls)
            found.label = name
        return found


class Borg:
    """A class whose objects have their attributes in common."""

    shared = {"label": "borg"}

    def __new__(cls):
        made = super().__new__(cls)
        made.__dict__ = cls.shared
        return made


class Proxy:
    """An object that shows the attributes of another one as its own."""

    target = Job()
    target.label = "target"

    @property
    def __dict__(self):
        return vars(Proxy.target)


@functools.lru_cache(maxsize=None)
def remembered():
    """The same object at each call."""
    made = Job()
    made.label = "remembered"
    return made


REGISTRY = {"label": "registry"}
NAMES = ["registry"]
SET = {"registry"}


def registry():
    return REGISTRY


def names():
    return NAMES


CALLED = []


def called(*given):
    """Tells of a call that no program has made."""
    CALLED.append(given)
    return given


class Stated:
    """Takes a state by itself."""

    def __setstate__(self, state):
        self.taken = state

    def __getstate__(self):
        return [self.taken]


class Attributes(dict):
    """A dict whose keys are its attributes."""

    def __init__(self, *given, **named):
        super().__init__(*given, **named)
        self.__dict__ = self


class Numbers(list):
    """A list with attributes."""


class Failure(Exception):
    """An exception with attributes and arguments of its own."""

    def __init__(self, why, job=None):
        super().__init__(why, job)
        self.job = job


class Ordered(collections.OrderedDict):
    """A dict with order and attributes."""


class Wrapper:
    """A function in an object, as a decorator makes it."""

    def __init__(self, function):
        functools.update_wrapper(self, function)


def noted(job: Wrapper) -> Wrapper:
    """A function with annotations."""


def rebuilt(kind, *given):
    """Makes an object, as the first part of what `__reduce__` gives."""
    return kind(*given)


class Reduced:
    """Is made by a function and then gets its attributes."""

    def __init__(self, name):
        self.name = name
        self.own = {}

    def __reduce__(self):
        return (rebuilt, (Reduced, self.name), self.__dict__)


STATUS = http.HTTPStatus.OK


class Listing(Exception):
    """An exception that has itself among its arguments and attributes."""

    def __init__(self, why):
        super().__init__(self, why)
        self.why, self.listed, self.named = why, [self], {"me": (self,)}

    def __reduce__(self):
        return (Listing, (self.why,), {"label": self.why})


LISTED = []


class Registered:
    """Is known to a list of its module, and to its own attributes."""

    def __init__(self, name):
        self.label, self.all = name, LISTED
        LISTED.append(self)

    def __reduce__(self):
        return (Registered, (self.label,), {"label": self.label})

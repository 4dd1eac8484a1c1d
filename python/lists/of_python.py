"""Objects of Python's library for each starter list: what a list is made from, and tried with."""

import calendar
import decimal
import enum
import http
import importlib
import inspect
import pathlib
import pickle
import plistlib
import re
import signal
import uuid

MODULES = """asyncio binascii builtins concurrent.futures concurrent.futures.process
    configparser csv decimal email.errors http.client ipaddress json lzma queue smtplib
    socket ssl statistics struct subprocess xml.etree.ElementTree zlib zoneinfo""".split()
"""The modules whose exceptions are in the list."""
ENUMS = (calendar, http, inspect, plistlib, re, signal, uuid)
_GIVEN = [
    ("why",), (), (1, "why"), ("utf-8", b"\xff", 0, 1, "why"), ("utf-8", "\xff", 0, 1, "why"),
    ("\xff", 0, 1, "why"), ("why", "text", 0), (1, ["command"]), ("why", [ValueError("inner")]),
    (550, b"why", "sender"), ("option", "section", "value"), ("file", 1, "line"),
]
"""What exceptions are made with: the first that fits."""


def exceptions():
    """Exceptions of builtins and of modules that services use, with their usual arguments."""
    for name in MODULES:
        try:
            module = importlib.import_module(name)
        except ImportError:  # (this Python is older, or lacks a library)
            continue
        for kind in sorted(_exceptions_of(module), key=lambda kind: kind.__qualname__):
            yield from _made(kind)


def _exceptions_of(module):
    found = (it for it in vars(module).values() if isinstance(it, type))
    return {
        kind for kind in found
        if issubclass(kind, Exception) and f"{kind.__module__}.".startswith(f"{module.__name__}.")
    }


def _made(kind):
    for given in _GIVEN:
        try:
            made = kind(*given)
            again = pickle.loads(pickle.dumps(made, 4))
            is_same = type(again) is kind and str(again) == str(made)
        except Exception:  # (whatever the class says of these arguments)
            continue
        if is_same:
            yield made
            return


def enum_classes():
    """The enums of the library that other libraries hand out."""
    for module in ENUMS:
        for kind in vars(module).values():
            is_one = isinstance(kind, type) and issubclass(kind, enum.Enum)
            if is_one and kind.__module__ == module.__name__ and len(kind):
                yield kind


def enums():
    """Their members, and flags of two."""
    for kind in enum_classes():
        yield from kind
    yield re.IGNORECASE | re.MULTILINE


def paths():
    """Paths, pure and of this system."""
    words = ("/usr", "lib", "file.txt")
    yield from (pathlib.PurePosixPath(*words), pathlib.PureWindowsPath("c:\\", "file.txt"))
    yield from (pathlib.Path(*words), pathlib.Path(), pathlib.PosixPath("a"))


def decimals():
    """Numbers, their parts and contexts."""
    number = decimal.Decimal("-1.50")
    yield from (number, decimal.Decimal("NaN"), number.as_tuple())
    yield from (decimal.Context(prec=5), decimal.BasicContext, decimal.ExtendedContext)


def uuids():
    """UUIDs of each kind."""
    yield from (uuid.uuid1(), uuid.uuid3(uuid.NAMESPACE_DNS, "a"), uuid.uuid4(), uuid.UUID(int=7))


OBJECTS = {
    "EXCEPTIONS": exceptions,
    "ENUM": enums,
    "PATHLIB": paths,
    "DECIMAL": decimals,
    "UUID": uuids,
}
"""By the name of the list."""

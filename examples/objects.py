"""Objects of Python's standard library, and their pickles in every protocol."""
import array
import calendar
import collections
import datetime
import decimal
import email.message
import fractions
import functools
import io
import ipaddress
import json
import operator
import pathlib
import pickle
import random
import re
import time
import types
import uuid
import zoneinfo  # type: ignore[import]
from typing import Dict, Iterator, List, Tuple


def shared() -> Dict[str, object]:
    inner = ["shared"]
    return {"one": inner, "other": inner, "pair": (inner, inner)}


def cyclic() -> List[object]:
    outer: List[object] = []
    outer.append({"outer": outer})
    return outer


OBJECTS: List[object] = [
    None,
    True,
    -1,
    2**70,
    1.5,
    "text",
    b"bytes",
    bytearray(b"bytes"),
    [1, [2]],
    (1, (2,), (3, 4), (5, 6, 7), (8, 9, 10, 11)),
    {"a": {"b": [None]}},
    {1, 2, 3},
    frozenset({"a"}),
    complex(1, 2),
    range(5),
    slice(1, 2),
    Ellipsis,
    shared(),
    cyclic(),
    "x" * 300,
    list(range(2000)),
    {str(i): i for i in range(1500)},
    datetime.date(2001, 2, 3),
    datetime.datetime(2001, 2, 3, 4, 5, tzinfo=datetime.timezone.utc),
    datetime.timedelta(days=3),
    datetime.time(1, 2),
    decimal.Decimal("1.25"),
    decimal.Context(prec=7),
    fractions.Fraction(3, 4),
    collections.OrderedDict(a=1),
    collections.Counter("hello"),
    collections.defaultdict(list, a=[1]),
    collections.deque([1, 2], 5),
    collections.ChainMap({"a": 1}),
    ValueError("no"),
    KeyError("k"),
    OSError(2, "gone"),
    uuid.UUID(int=7),
    ipaddress.ip_address("127.0.0.1"),
    ipaddress.ip_network("10.0.0.0/8"),
    pathlib.PurePosixPath("a/b"),
    re.compile("a+b"),
    functools.partial(int, base=2),
    operator.itemgetter(1, 2),
    operator.attrgetter("a.b"),
    array.array("i", [1, 2, 3]),
    types.SimpleNamespace(a=1),
    time.gmtime(0),
    random.Random(1),
    len,
    dict,
    json.JSONEncoder,
    re.IGNORECASE,
    zoneinfo.ZoneInfo,
    email.message.Message(),
    calendar.Calendar(),
    io.BytesIO(b"bytes"),
    io.StringIO("text"),
]


def pickles() -> Iterator[Tuple[object, int, bytes]]:
    """Each object that a protocol can pickle, with the protocol and the pickle."""
    for value in OBJECTS:
        for protocol in range(pickle.HIGHEST_PROTOCOL + 1):
            try:
                data = pickle.dumps(value, protocol)
            except (TypeError, pickle.PicklingError):
                continue
            yield value, protocol, data

"""Runs explanations: their statements as a function, with the functions that CPython's reader has
for instructions that Python has no words for.
"""

import collections
import copyreg
import datetime
import decimal
import enum
import io
import itertools
import pickle
import random
import textwrap

from storklocker.explaining.machine import Machine
from storklocker.explaining.writing import Writer
from storklocker.scanning.source import in_memory

ENDLESS = 1 << 60


def reader_with(*stack):
    """A reader of CPython, with this on its stack."""
    it = pickle._Unpickler(io.BytesIO())
    it.stack, it.metastack, it.proto = list(stack), [], 4
    it.append = it.stack.append
    return it


def setstate(target, state):
    """BUILD."""
    pickle._Unpickler.load_build(reader_with(target, state))


def instantiate(kind):
    """INST and OBJ without arguments."""
    it = reader_with()
    it._instantiate(kind, [])
    return it.stack[-1]


def readonly(buffer):
    """READONLY_BUFFER."""
    it = reader_with(buffer)
    it.load_readonly_buffer()
    return it.stack[-1]


def extension(number):
    """EXT1, EXT2 and EXT4."""
    return reader_with().find_class(*copyreg._inverted_registry[number])


def helpers(persistent_load=None, buffers=()):
    """The names that an explanation has besides those that it imports."""
    left = iter(buffers)
    return {
        "setstate": setstate,
        "instantiate": instantiate,
        "readonly": readonly,
        "extension": extension,
        "find_class": reader_with().find_class,
        "persistent_load": persistent_load,
        "next_buffer": lambda: next(left),
    }


def statements(data):
    """The statements of the first pickle."""
    source = in_memory(io.BytesIO(data))
    machine = Machine(source, 0, ENDLESS)
    assert machine.apart(), data
    return ["".join(it.pieces) for it in Writer(source, True, False).statements(machine.events)]


def run(lines, names):
    """What the statements return."""
    body = textwrap.indent("\n".join(lines), "    ")
    exec(compile(f"def made():\n{body}", "<explained>", "exec"), names)
    return names["made"]()


def same(one, other, seen=None):
    """Whether two objects are the same, as far as pickles of them say."""
    seen = {} if seen is None else seen
    if one is other or seen.get((id(one), id(other))):
        return True
    if type(one) is not type(other):
        return False
    seen[id(one), id(other)] = (one, other)
    kind = type(one)
    if kind in (list, tuple):
        return len(one) == len(other) and all(same(a, b, seen) for a, b in zip(one, other))
    if kind is dict:
        return same(list(one.items()), list(other.items()), seen)
    if kind in (int, str, bytes, bytearray, bool, complex):
        return one == other
    if kind is float:
        return repr(one) == repr(other)
    if kind in (set, frozenset):
        return one == other or _reprs(one) == _reprs(other)
    reduced = [_reduced(it) for it in (one, other)]
    return same(*reduced, seen)


def _reprs(values):
    return sorted(map(repr, values))


def _reduced(it):
    try:
        found = it.__reduce_ex__(4)
    except TypeError:  # (a union of types, which copyreg pickles)
        return repr(it)
    if isinstance(found, str):
        return found
    return [list(part) if hasattr(type(part), "__next__") else part for part in found]


def honest(most):
    """How many honest pickles were compared, up to a number, and those whose statements make
    something else than `pickle.loads`.
    """
    count, wrong = 0, []
    for data in generated():
        try:
            expected = pickle.loads(data)
        except Exception:  # (whatever a library raises that lacks something)
            continue
        if count == most:
            break
        count += 1
        made = run(statements(data), helpers())
        if not same(expected, made) and repr(expected) != repr(made):
            wrong.append(data)
    return (count, *wrong)


def generated():
    """Honest pickles of all protocols: objects of the standard library and NumPy, and random plain
    data.
    """
    import honest_objects  # (which puts another `common` on the path)

    chosen = random.Random(81)
    libraries = [honest_objects.pickles(name) for name in ("standard", "numpy", "packages")]
    while True:
        for library in libraries:
            for _, _, data in itertools.islice(library, 60):
                yield data
        for _ in range(60):
            yield pickle.dumps(plain(chosen, 4), chosen.randrange(6))


def plain(chosen, depth):
    """Random plain data, of which some is shared."""
    if not depth or chosen.random() < 0.3:
        return chosen.choice(
            [None, True, 7, -1, 1 << 70, 2.5, float("inf"), "a'\n\u2028", "b" * 300, b"c\0",
             datetime.timedelta(1), decimal.Decimal("1.5"), Ellipsis, range(3), Colour.RED, len]
        )
    parts = [plain(chosen, depth - 1) for _ in range(chosen.randrange(5))]
    parts += [chosen.choice(parts)] if parts else []
    kind = chosen.choice((list, tuple, dict, collections.deque, Held, collections.OrderedDict, set))
    if kind in (dict, collections.OrderedDict):
        return kind((str(number), part) for number, part in enumerate(parts))
    if kind is set:
        return {repr(part) for part in parts}
    made = kind(parts)
    if kind is Held and chosen.random() < 0.5:
        made.parts += (made,)
    return made


class Held:
    """An object with a state."""

    def __init__(self, parts):
        self.parts = tuple(parts)


class Colour(enum.Enum):
    """An enum."""

    RED = 1

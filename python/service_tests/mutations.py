"""Pickles of NumPy's types and arrays, true ones and ones that lie, for a child to load and use."""

import gc
import pickle
import random
import sys
import warnings

import numpy

warnings.simplefilter("ignore")
CORE = getattr(numpy, "_core", None) or numpy.core
DTYPE, RECONSTRUCT = numpy.dtype, CORE.multiarray._reconstruct


class Call:
    """Pickles as a call, and perhaps a BUILD."""

    def __init__(self, function, given, *state):
        self.parts = (function, given, *state)

    def __reduce__(self):
        return self.parts


def kind(code, *state):
    return Call(DTYPE, (code, False, True), *state)


def objects():
    return kind("O8", (3, "|", None, None, None, -1, -1, 63))


def floats():
    return kind("f8", (3, "<", None, None, None, -1, -1, 0))


def texts():
    return kind("U3", (3, "<", None, None, None, 12, 4, 8))


def times():
    return kind("M8", (4, "<", None, None, None, -1, -1, 0, ({}, (b"s", 1, 1, 1))))


def fields(size, **parts):
    named = tuple(parts)
    return kind("V%d" % size, (3, "|", None, named, dict(parts), size, 1, 27))


def rows():
    return fields(16, a=(floats(), 0), b=(objects(), 8))


def threes():
    return kind("V24", (3, "|", (floats(), (3,)), None, None, 24, 8, 16))


def array(of, shape, data, cls=numpy.ndarray, fortran=False):
    return Call(RECONSTRUCT, (cls, (0,), b"b"), (1, shape, of, fortran, data))


def masked(of, shape, data, mask):
    whole = Call(numpy.ma.core._mareconstruct, (numpy.ma.MaskedArray, numpy.ndarray, (0,), "b"))
    whole.parts += ((1, shape, of, False, data, mask, None),)
    return whole


def seeds():
    """True ones: what NumPy writes, but for what it contains."""
    record = Call(DTYPE, (numpy.record, False, True), fields(8, a=(floats(), 0)).parts[2])
    return [
        array(floats(), (2,), bytes(16)),
        array(objects(), (2,), [1, "a"]),
        array(rows(), (1,), [(1.0, "x")]),
        array(fields(8, a=(floats(), 0)), (2,), b"A" * 16),
        array(texts(), (1,), bytes(12)),
        array(times(), (1,), b"A" * 8),
        masked(floats(), (2,), bytes(16), bytes(2)),
        Call(CORE.multiarray.scalar, (floats(), b"A" * 8)),
        rows(),
        threes(),
        array(fields(24, s=(threes(), 0)), (1,), b"A" * 24),
        Call(CORE.numeric._frombuffer, (b"A" * 16, floats(), (2,), "C")),
        array(floats(), (2, 2), b"A" * 32, numpy.matrix, True),
        array(record, (1,), b"A" * 8, numpy.recarray),
    ]


POOL = [
    *(None, 0, 1, -1, 2, 3, 7, 8, 16, 63, 127, 255, 1000, 1 << 20, 1 << 31, 1 << 40, -(1 << 40)),
    *(1 << 62, True, False, "", "O", "|", ">", "<", "a", b"", b"A" * 8, b"\0", (), (0,), (1,)),
    *((5,), (1 << 30,), (-1,), (1, 1, 1), [], [1], {}, {"a": (None, 0)}, "O8", "V8", "f8", 1.5),
    *("S1000000", "f8,O"),
]


def mutated(chosen, value):
    """A value with one of its parts changed."""
    if isinstance(value, Call):
        parts = list(value.parts)
        place = chosen.randrange(1, len(parts))
        parts[place] = mutated(chosen, parts[place])
        return Call(*(parts[:2] if chosen.random() < 0.05 else parts))
    if isinstance(value, tuple) and value and chosen.random() < 0.9:
        return _changed_tuple(chosen, list(value))
    if isinstance(value, dict) and value and chosen.random() < 0.8:
        return {key: mutated(chosen, part) for key, part in value.items()}
    if isinstance(value, list) and value and chosen.random() < 0.5:
        return value[:-1]
    if isinstance(value, int) and chosen.random() < 0.3:
        return value ^ (1 << chosen.randrange(8))
    if chosen.random() < 0.25:
        return chosen.choice([objects, floats, rows, threes, texts])()
    return chosen.choice(POOL)


def _changed_tuple(chosen, items):
    place, how = chosen.randrange(len(items)), chosen.random()
    if how < 0.75:
        items[place] = mutated(chosen, items[place])
    elif how < 0.8:
        del items[place]
    elif how < 0.85:
        items.insert(place, chosen.choice(POOL))
    else:
        other = chosen.randrange(len(items))
        items[place], items[other] = items[other], items[place]
    return tuple(items)


def pickles(count, seed):
    """As many pickles, each of a seed that was changed up to three times."""
    chosen = random.Random(seed)
    while count:
        value = chosen.choice(seeds())
        for _ in range(chosen.choice((1, 1, 1, 2, 3))):
            value = mutated(chosen, value)
        try:
            data = pickle.dumps(value, chosen.choice((2, 4)))
        except Exception:  # some states break pickle itself
            continue
        count -= 1
        yield data


def use(value):
    """Uses a value in the ways that follow its pointers and sizes."""
    for call in (
        *(repr, hash, pickle.dumps, numpy.sort, lambda it: it.tolist(), lambda it: it == it),
        *(lambda it: it["a"], lambda it: it["a"][0], lambda it: it.fields, lambda it: it[0]),
        *(lambda it: numpy.zeros(2, it), lambda it: numpy.array(it).astype(object)),
        *(lambda it: it.copy(), lambda it: it.view("V1"), lambda it: it + it),
    ):
        try:
            call(value)
        except Exception:
            continue


def main():
    """Loads and uses pickles, and prints the number of each and how many were loaded."""
    how, count, seed, start = sys.argv[1], *map(int, sys.argv[2:])
    import storklocker
    from storklocker import lists

    more = {"numpy": ["matrix", "recarray", "record"]}
    guard = storklocker.Guard(lists.NUMPY | storklocker.AllowList(more))
    load = guard.loads if how == "guard" else pickle.loads
    loaded = 0
    for number, data in enumerate(pickles(count, seed)):
        if number < start:
            continue
        print(number, flush=True)
        try:
            value = load(data)
        except Exception:
            continue
        loaded += 1
        use(value)
        del value
    gc.collect()
    print(f"done {loaded}")


if __name__ == "__main__":
    main()

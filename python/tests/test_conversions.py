"""What NumPy and pandas make of an object that a pickle gives in the place of a number, a text or a
type. In the control, without the guard, the process ends, or does what it never does.
"""

import decimal
import pickle
import subprocess
import sys
import unittest

from common import needs
from storklocker import AllowList, Guard, Misused, lists

LOADS = """
import os, pickle, resource, sys
import pandas
data = sys.stdin.buffer.read()
for kind, bound in ((resource.RLIMIT_CORE, 0), (resource.RLIMIT_CPU, 3)):
    resource.setrlimit(kind, (bound, bound))
resource.setrlimit(resource.RLIMIT_AS, (8 << 30, 8 << 30))
sys.addaudithook(lambda event, given: event == "compile" and given[0] in (b"1", "1")
                 and os._exit(7))
pickle.loads(data)
"""
GREAT = decimal.Decimal("1e300000000")


class Call:
    """Pickled as a call, and a state."""

    def __init__(self, *row):
        self.row = row

    def __reduce__(self):
        return self.row


def doubled():
    """A key that takes years to hash."""
    made = ()
    for _ in range(60):
        made = (made, made)
    return made


def array(kind, shape, items):
    """An array of these items, which NumPy hasn't seen."""
    import numpy

    call, given, _ = numpy.empty(0).__reduce__()
    return Call(call, given, (1, shape, kind, False, items))


def filled(value):
    """A masked array that another value fills."""
    import numpy

    call, given, state = numpy.ma.array([1, 2], mask=[0, 1]).__reduce__()
    return Call(call, given, (*state[:-1], value))


def index(kind, words):
    import pandas

    return Call(pandas.Index([1]).__reduce__()[0], (kind, words))


class Conversions(unittest.TestCase):
    def refuses(self, attacks, guard):
        for what, made in attacks.items():
            data = pickle.dumps(made, 4)
            with self.subTest(what=what):
                ran = subprocess.run([sys.executable, "-W", "ignore", "-c", LOADS], input=data,
                                     stdout=subprocess.DEVNULL, stderr=subprocess.DEVNULL)
                self.assertNotEqual(ran.returncode, 0)  # (the control)
                with self.assertRaises(Misused):
                    guard.loads(data)


@needs("module:pandas")
class Numpy(Conversions):
    def test_items_of_fields(self):
        import numpy

        objects, fields = numpy.dtype("O"), [("o", "O"), ("i", "i8")]
        rows = [("o", "O"), ("i", "i8", (2,))]
        self.refuses({
            "a number": array(numpy.dtype(fields), (1,), [(None, GREAT)]),
            "a number within": array(numpy.dtype([("f", fields)]), (1,), [((None, GREAT),)]),
            "a row": array(numpy.dtype(rows), (1,), [(None, [GREAT, GREAT])]),
            "an array": array(numpy.dtype(rows), (1,), [(None, array(objects, (2,), [GREAT] * 2))]),
            "what fills": filled(array(objects, (), [GREAT])),
        }, Guard(lists.NUMPY | lists.DECIMAL))

    def test_a_row_for_many(self):
        """One row of many fields, which are set as often as the array is long."""
        import numpy

        kind = numpy.dtype([("o", "O"), *((f"f{at}", "b") for at in range(9_000))])
        row = (None, *[0] * 9_000)
        data = pickle.dumps(array(kind, (20_000,), [row] * 20_000), 4)
        self.assertLess(len(data), 400_000)
        with self.assertRaises(Misused):
            Guard(lists.NUMPY).loads(data)
        data = pickle.dumps(numpy.zeros(20, kind), 4)
        self.assertEqual(len(pickle.loads(data)), 20)  # (the control)
        self.assertEqual(len(Guard(lists.NUMPY).loads(data)), 20)

    def test_honest_arrays(self):
        import numpy

        more = AllowList([("builtins", "complex"), ("datetime", "date")])
        guard = Guard(lists.NUMPY | lists.DATETIME | lists.STANDARD_TYPES | more)
        kinds = [
            *"? i1 u8 f2 f8 g F D G S5 U5 V5 M8[D] M8[us] M8[ns] m8[s] m8[ns] >i4 >U3".split(),
            "(2,)i4", "(2,2)O", "(2,)U3", [("a", "O"), ("b", "(3,)M8[s]")],
            numpy.dtype(("(2,)i4", (3,))),
        ]
        for kind in kinds:
            made = numpy.zeros(2, [("o", "O"), ("f", kind)])
            for honest in (made, made.view(numpy.recarray)):
                for protocol in range(2, 6):
                    data = pickle.dumps(honest, protocol)
                    self.assertEqual(repr(guard.loads(data)), repr(pickle.loads(data)), kind)
        rows = (numpy.ma.array([1, 2], mask=[0, 1], fill_value=5),
                numpy.ma.array([1, None], dtype=object, mask=[0, 1], fill_value="none"),
                numpy.ma.array([(1, "a")], dtype=[("n", "i8"), ("t", "O")], mask=[(0, 1)]))
        for honest in rows:
            data = pickle.dumps(honest, 4)
            self.assertEqual(repr(guard.loads(data)), repr(pickle.loads(data)))


@needs("module:pandas")
class Pandas(Conversions):
    def test_indexes(self):
        import pandas

        words = pandas.MultiIndex.from_arrays([[1, 2], [3, 4]]).__reduce__()[1][1]
        times = pandas.DatetimeIndex(["1700-01-31", "2000-01-03 04:05:06"])
        never = pandas.DateOffset(n=(1 << 31) - 1, days=0)
        self.refuses({
            "names": index(pandas.MultiIndex, {**words, "names": [doubled(), None]}),
            "an order": index(pandas.MultiIndex, {**words, "sortorder": GREAT}),
            "a step": index(pandas.DatetimeIndex, {"data": times, "freq": never, "name": None}),
        }, Guard(lists.PANDAS | lists.DECIMAL))

    def test_keys_of_levels(self):
        """Before pandas 1.3 a load hashes them, and what it then raises is printed, with lines of
        files of which the compiled code says the names.
        """
        import numpy
        import pandas

        call = pandas.Index([1]).__reduce__()[0]
        words = pandas.MultiIndex.from_arrays([[1, 2]]).__reduce__()[1][1]
        ask = "import pickle, sys; pickle.load(sys.stdin.buffer).levels[0].is_unique"
        limit = "import resource; resource.setrlimit(resource.RLIMIT_CPU, (3, 3)); "
        for items in ([doubled(), 1], [[1], 2], [({},), 1]):
            kept = array(numpy.dtype("O"), (2,), items)
            level = Call(call, (pandas.Index, {"data": kept, "name": None}))
            data = pickle.dumps(index(pandas.MultiIndex, {**words, "levels": [level]}), 4)
            ran = subprocess.run([sys.executable, "-W", "ignore", "-c", limit + ask], input=data,
                                 stderr=subprocess.DEVNULL)
            self.assertNotEqual(ran.returncode, 0)  # (the control)
            with self.assertRaises(Misused):
                Guard(lists.PANDAS).loads(data)

    def test_the_type_of_an_array(self):
        import pandas

        periods = pandas.period_range("2020", periods=3, freq="D")
        call, given, state = getattr(periods, "_data").__reduce__()
        if type(state) is not tuple or len(state) != 3:
            self.skipTest("this version of pandas has no such state")
        array = Call(call, given, tuple(
            it if hasattr(it, "nbytes") or type(it) is dict else "1e300000000" for it in state))
        self.refuses({"a text": index(pandas.PeriodIndex, {"data": array, "name": None})},
                     Guard(lists.PANDAS))

    def test_items_of_an_index(self):
        """A reader gives items to what has an `append`: that of an index makes a longer one."""
        import pandas

        data = pickle.dumps(pandas.RangeIndex(1 << 33), 4)[:-1] + b"(\x88\x88e."
        ran = subprocess.run([sys.executable, "-c", LOADS], input=data, stderr=subprocess.DEVNULL)
        self.assertNotEqual(ran.returncode, 0)  # (the control)
        with self.assertRaises(Misused):
            Guard(lists.PANDAS).loads(data)

    def test_honest_indexes(self):
        import pandas

        guard = Guard(lists.PANDAS | lists.DATETIME)
        days = pandas.date_range("2020-01-31", periods=50, freq=pandas.DateOffset(months=12))
        for honest in (
            days, days._with_freq(None), pandas.period_range("2020", periods=3, freq="D"),
            pandas.timedelta_range("1s", periods=3), pandas.Index(["a", (1, 2)]),
            pandas.MultiIndex.from_arrays([[1, 2], [3, 4]], names=["a", ("b", 1)]),
            pandas.MultiIndex.from_arrays([["a", None, 1 << 70], [days[0], 1.5, (1, "b")]]),
            pandas.MultiIndex.from_arrays([[1, 2], [3, 4]], sortorder=0),
            pandas.interval_range(0, 3), pandas.CategoricalIndex(["a", "b"]),
        ):
            for protocol in range(2, 6):
                loaded = guard.loads(pickle.dumps(honest, protocol))
                self.assertTrue(loaded.equals(honest))
                self.assertEqual(loaded.names, honest.names)


if __name__ == "__main__":
    unittest.main()

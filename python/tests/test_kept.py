"""What a process keeps until it ends doesn't grow with what pickles say, and no text names a file.

Each test has its control, in which `pickle` loads the same.
"""

import pickle
import unittest
import unittest.mock

from common import needs, python
from storklocker import Guard, Misused, _of_pandas, _versions, lists

SEVERAL = 300


class As:
    """Is pickled as it says."""

    def __init__(self, *parts):
        self.parts = parts

    def __reduce__(self):
        return self.parts


def text(word):
    return b"X" + len(word).to_bytes(4, "little") + word.encode()


def warned_of(load, made):
    """How many texts Python keeps of which it has warned."""
    code = f"""
import pickle, sys, warnings
from storklocker import AllowList, Guard, lists
{made[0]}
load = {load}
for data in {made[1]}:
    load(data)
print(sum(len(getattr(it, "__warningregistry__", ())) for it in list(sys.modules.values())))
"""
    return int(python(code, PYTHONWARNINGS="default"))


ESTIMATORS = (
    "import sklearn.base\n"
    "from sklearn.naive_bayes import GaussianNB\n"
    "def said(version):\n"
    "    sklearn.base.__version__, own = version, sklearn.base.__version__\n"
    "    data = pickle.dumps(GaussianNB(), 4)\n"
    "    sklearn.base.__version__ = own\n"
    "    return data\n"
    "listed = lists.SCIKIT_LEARN",
    f"[said(f'0.{{number}}') for number in range({SEVERAL})]",
)
MODELS = (
    "import django\n"
    "from django.conf import settings\n"
    "settings.configure(INSTALLED_APPS=['django.contrib.contenttypes', 'django.contrib.auth'])\n"
    "django.setup()\n"
    "from django.db.models.base import model_unpickle\n"
    "class As:\n"
    "    def __init__(self, version): self.version = version\n"
    "    def __reduce__(self):\n"
    "        return model_unpickle, (('auth', 'User'),), {'_django_version': self.version}\n"
    "listed = lists.DJANGO",
    f"[pickle.dumps(As(f'0.{{number}}'), 4) for number in range({SEVERAL})]",
)


class Warned(unittest.TestCase):
    def bounded(self, made):
        self.assertGreaterEqual(warned_of("pickle.loads", made), SEVERAL)  # (the control)
        self.assertLess(warned_of("Guard(listed).loads", made), 2 * _versions.MOST)

    @needs("module:sklearn")
    def test_versions_of_estimators(self):
        self.bounded(ESTIMATORS)

    @needs("module:django")
    def test_versions_of_models(self):
        self.bounded(MODELS)

    @needs("module:django")
    def test_a_version_that_never_ends(self):
        """A tuple doubled sixty times, whose text a warning would have."""
        data = b"\x80\4cdjango.db.models.base\nmodel_unpickle\n(" + text("auth") + text("User")
        data += b"t\x85R}" + text("_django_version") + b")" + b"2\x86" * 60 + b"sb."
        front = "import pickle, resource\nfrom storklocker import Guard, Misused, lists\n"
        front += f"resource.setrlimit(resource.RLIMIT_CPU, (5, 5))\n{MODELS[0]}\ndata = {data!r}\n"
        front += "resource.setrlimit(resource.RLIMIT_AS, (2 << 30, 2 << 30))\n"
        with self.assertRaises(AssertionError):  # (the control: the process ends)
            python(f"{front}pickle.loads(data)")
        said = python(f"{front}try:\n    Guard(listed).loads(data)\nexcept Misused:\n    print(1)")
        self.assertEqual(said, "1\n")


@needs("module:pandas")
class Types(unittest.TestCase):
    def test_types_of_periods(self):
        from pandas.core.dtypes.dtypes import PeriodDtype
        from pandas.tseries.offsets import Day

        made = [pickle.dumps(As(PeriodDtype, (Day(7_000 + k),)), 4) for k in range(SEVERAL)]
        guard, kept = Guard(lists.PANDAS), _of_pandas.kept_by(PeriodDtype)
        with unittest.mock.patch.object(_of_pandas, "MOST_KEPT", len(kept) + 20):
            for data in made:
                guard.loads(data)
            self.assertLessEqual(len(kept), _of_pandas.MOST_KEPT)
        for data in made:  # (the control)
            pickle.loads(data)
        self.assertGreaterEqual(len(kept), SEVERAL)
        self.assertEqual(guard.loads(made[0]), PeriodDtype(Day(7_000)))

    def test_a_long_name_of_a_zone(self):
        import datetime

        import pandas
        from pandas.core.dtypes.dtypes import IntervalDtype

        zone = datetime.timezone(datetime.timedelta(0), "x" * 1000)
        made = pandas.interval_range(pandas.Timestamp("2026-01-02", tz=zone), periods=2)
        data, kept = pickle.dumps(made, 4), _of_pandas.kept_by(IntervalDtype)
        version = tuple(map(int, pandas.__version__.split(".")[:2]))
        most = int((1, 2) <= version < (2, 0))  # (others keep none)
        for load, count in ((Guard(lists.PANDAS | lists.DATETIME).loads, 0), (pickle.loads, most)):
            kept.clear()
            load(data)
            self.assertEqual(sum(len(str(it)) > 1000 for it in kept), count)

    def test_a_zone_that_is_a_file(self):
        words = """
import numpy, pandas, pickle, sys, test_kept
from pandas.core.indexes import datetimes
from storklocker import Guard, lists
given = {"data": numpy.array([0], "M8[ns]"), "tz": "dateutil//etc/passwd", "freq": None}
data = pickle.dumps(test_kept.As(datetimes._new_DatetimeIndex, (pandas.DatetimeIndex, given)), 4)
loads = {"guard": Guard(lists.PANDAS).loads, "pickle": pickle.loads}
sys.addaudithook(lambda event, given: event == "open" and given[0] == "/etc/passwd" and print(how))
for how, load in loads.items():
    try:
        load(data)
    except Exception as error:
        print(how, type(error).__name__)
"""
        said = python(words).split("\n")
        self.assertEqual(said[0], "guard Misused")
        self.assertEqual(said[1], "pickle")  # (the control)


if __name__ == "__main__":
    unittest.main()

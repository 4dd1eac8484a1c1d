"""Objects for each list of storklocker.lists: what a list is made from, and tried with."""

import array
import collections
import datetime
import decimal
import fractions
import ipaddress
import uuid

NOON = datetime.datetime(2026, 1, 2, 12, 30, 15, 250)


def standard_types():
    """Of builtins and of modules whose objects are values."""
    return [
        {1, 2}, frozenset("ab"), 1 + 2j, range(3), slice(1, 5, 2), bytearray(b"ab"), b"\xff", 2**70,
        decimal.Decimal("1.50"), fractions.Fraction(1, 3), uuid.UUID(int=7),
        array.array("d", [1.5]), True, None, "text", [1], (2,), uuid.uuid4(), object,
        ipaddress.ip_address("10.0.0.1"), ipaddress.ip_network("10.0.0.0/8"),
        ipaddress.ip_address("::1"), ipaddress.ip_network("fe80::/10"),
    ]


def datetimes():
    """Of datetime. Time zones of zoneinfo want builtins.getattr, which permits everything."""
    return [
        NOON, NOON.date(), NOON.time(), datetime.timedelta(1, 2, 3), datetime.timezone.utc,
        NOON.replace(tzinfo=datetime.timezone(datetime.timedelta(hours=2), "x")),
        NOON.replace(fold=1),
    ]


def collections_of():
    """Of collections."""
    return [
        collections.OrderedDict(a=1, b=2), collections.deque([1, 2], 5), collections.Counter("aab"),
        collections.defaultdict(list, a=[1]), collections.defaultdict(int, a=1),
        collections.defaultdict(dict), collections.defaultdict(set), collections.ChainMap({"a": 1}),
        collections.UserDict(a=1), collections.UserList([1]), collections.UserString("a"),
    ]


def numpy_values():
    """Arrays, scalars and types of NumPy."""
    import numpy

    kinds = ("i1", "u2", "i8", "f4", "f8", "c16", "?", "S3", "U3", "M8[s]", "m8[D]", ">i4")
    return [
        *(numpy.zeros(3, kind) for kind in kinds), numpy.arange(6).reshape(2, 3), numpy.array(5),
        numpy.asfortranarray(numpy.arange(6.0).reshape(2, 3)), numpy.array(["a", 1], dtype=object),
        numpy.zeros(2, [("a", "i4"), ("b", "f8")]), numpy.float64(1.5), numpy.int32(2),
        numpy.bool_(True), numpy.datetime64("2026-01-02"), numpy.dtype("f8"), numpy.str_("a"),
        numpy.ma.array([1, 2], mask=[0, 1]), numpy.random.RandomState(1).get_state(),
    ]


def pandas_values():
    """Frames, series, indexes and scalars of pandas."""
    import pandas

    times = pandas.date_range("2026-01-02", periods=3)
    frame = pandas.DataFrame({"a": [1, 2, 3], "b": ["x", None, "z"], "c": [1.5, 2, 3], "t": times})
    return [
        frame, frame.set_index("t"), frame["a"], frame.groupby("b").sum(numeric_only=True),
        frame.astype({"b": "category"}), frame.astype({"a": "Int64", "b": "string"}), times,
        pandas.Index(["a", "b"]), pandas.MultiIndex.from_tuples([(1, "a"), (2, "b")]),
        pandas.Timestamp("2026-01-02"), pandas.Timestamp("2026-01-02", tz="UTC"), pandas.NaT,
        pandas.Timestamp(NOON, tz=datetime.timezone(datetime.timedelta(hours=2))),
        pandas.Timedelta("1D"), pandas.Period("2026-01"), pandas.Interval(0, 1), pandas.NA,
        times.tz_localize("UTC"), times.to_period("D"), pandas.Series([True, False]),
        pandas.Series([1, 2], dtype="Sparse[int]"), pandas.interval_range(0, 3),
        pandas.timedelta_range("1D", periods=2), pandas.Series(times.tz_localize("UTC")),
        pandas.array([1, None], dtype="Int32"), pandas.array([True, None], dtype="boolean"),
        pandas.array([1.5, None], dtype="Float64"),
    ]


def sklearn_values():
    """Fitted estimators of scikit-learn."""
    import numpy
    from sklearn import cluster, decomposition, ensemble, linear_model, neighbors, pipeline
    from sklearn import preprocessing, svm, tree

    data, target = numpy.arange(40.0).reshape(20, 2) % 7, numpy.arange(20) % 2
    models = [
        linear_model.LogisticRegression(), linear_model.LinearRegression(), linear_model.Ridge(),
        linear_model.SGDClassifier(), tree.DecisionTreeClassifier(), tree.DecisionTreeRegressor(),
        ensemble.RandomForestClassifier(3), ensemble.RandomForestRegressor(3),
        ensemble.GradientBoostingClassifier(n_estimators=3), svm.SVC(), svm.LinearSVC(),
        neighbors.KNeighborsClassifier(3), cluster.KMeans(2, n_init=1), decomposition.PCA(1),
        preprocessing.StandardScaler(), preprocessing.MinMaxScaler(), preprocessing.OneHotEncoder(),
        pipeline.make_pipeline(preprocessing.StandardScaler(), linear_model.LogisticRegression()),
    ]
    return [model.fit(data, target) for model in models] + [
        preprocessing.LabelEncoder().fit(target)
    ]


LISTS = {
    "STANDARD_TYPES": standard_types,
    "DATETIME": datetimes,
    "COLLECTIONS": collections_of,
    "NUMPY": numpy_values,
    "PANDAS": pandas_values,
    "SCIKIT_LEARN": sklearn_values,
}

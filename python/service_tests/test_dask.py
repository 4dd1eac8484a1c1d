"""A bag of 100,000 pickles in Dask over two worker processes; the rows of Spark."""

import pickle

import common
import poison
import watching

NEEDS = ("dask", "distributed", "tornado")
COUNT, EACH = 100_000, 2000


class Watched(type(common.guard())):
    """A guard that is watched, in whichever process it loads."""

    __slots__ = ()

    def loads(self, data, /, **named):
        """`Guard.loads`, which marks what the list doesn't permit."""
        with watching.during(self.allow):
            return super().loads(data, **named)


def entry(number):
    """A key and a pickle: one of EACH is hostile."""
    if number % EACH == 0:
        return (number, common.hostile(number // EACH))
    return (number, pickle.dumps(common.good(number), 4))


def run():
    """The test."""
    import dask.bag
    from distributed import Client, LocalCluster

    from storklocker.contrib.dask import check_bag, load_bag

    try_spark()
    try_table()
    guard = Watched(common.guard().allow)
    with LocalCluster(
        n_workers=2, threads_per_worker=1, host="127.0.0.1", dashboard_address=None
    ) as cluster, Client(cluster):
        bag = dask.bag.from_sequence(range(COUNT), npartitions=20).map(entry)
        rows = check_bag(bag, guard).compute()
        assert [row.key for row in rows] == list(range(COUNT))
        # (what is accepted may raise when it is loaded)
        judged(rows, EACH, range(4))
        loaded = load_bag(bag, guard).compute()
        assert [row.key for row in loaded] == list(range(COUNT))
        judged(loaded, EACH, range(5))
        assert loaded[5].value == common.good(5)
    common.nothing_ran()


def judged(rows, each, shapes):
    """Just the hostile pickles of these shapes are refused, each by its reason."""
    refused = {row.key: row for row in rows if not row.accepted}
    wanted = {at * each: common.SAID[at % 5] for at in range(common.HOSTILE) if at % 5 in shapes}
    assert refused.keys() == wanted.keys(), (len(refused), len(wanted))
    assert all(wanted[key] in row.why for key, row in refused.items()), refused
    names = {0: (("posix", "system"),), each: (("tripwire", "Trip"),)}
    assert all(refused[key].missing == missing for key, missing in names.items())


def try_spark():
    """What Spark's `mapPartitions` calls, over a partition, with the guard as it travels."""
    from storklocker.contrib.spark import check_rows, load_rows

    pairs = [(it * 21, common.hostile(it)) for it in range(common.HOSTILE)]
    good = [it for it in range(21 * common.HOSTILE) if it % 21]
    pairs += [(it, pickle.dumps(common.good(it), 4)) for it in good]
    for make, shapes in ((check_rows, range(4)), (load_rows, range(5))):
        rows = list(pickle.loads(pickle.dumps(make(Watched(common.guard().allow))))(iter(pairs)))
        assert [row.key for row in rows] == [key for key, _ in pairs]
        judged(rows, 21, shapes)
    assert [row.value for row in rows[common.HOSTILE :]] == [common.good(it) for it in good]


def try_table():
    """One round of rows names every import that a list lacks."""
    import dask.bag

    import storklocker
    from storklocker.contrib.dask import check_bag, load_bag

    with common.table() as table:
        bag = dask.bag.from_sequence
        table.runs_all(lambda data: bag([data]).map(pickle.loads).compute(scheduler="sync"))
    pairs = list(poison.shapes(common.MARKS).items())
    bag = dask.bag.from_sequence(pairs)
    guard = Watched(common.guard().allow)
    for make in (check_bag, load_bag):
        rows = make(bag, guard).compute(scheduler="sync")
        assert len(rows) == len(pairs) and not any(row.accepted for row in rows)
        allow = storklocker.AllowList([it for row in rows for it in row.missing if it.module])
        assert not any(storklocker.missing(data, allow) for _, data in pairs)

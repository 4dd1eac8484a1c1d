"""Programs that use processes, without and with a guard that is installed.

    python honest_programs.py HOW FILE NAME...

HOW is as in honest_suites.py; the file has the imports. Each prints what came of it.
"""

import functools
import logging
import multiprocessing
import pickle
import sys
from pathlib import Path

import honest_suites
import storklocker


def doubled(it):
    return it * 2


def joblib_backends():
    import joblib
    import numpy

    yield
    small, large = numpy.arange(6.0), numpy.ones(200_000)
    for backend in ("multiprocessing", "loky", "threading"):
        with joblib.parallel_backend(backend, n_jobs=2):
            found = joblib.Parallel()(joblib.delayed(doubled)(it) for it in (small, large, "a"))
        print(backend, found[0].tolist(), found[1].sum(), found[2])


def grid_search():
    import numpy
    from sklearn.model_selection import GridSearchCV
    from sklearn.tree import DecisionTreeClassifier

    yield
    values = numpy.arange(60.0).reshape(30, 2)
    tree = DecisionTreeClassifier(random_state=0)
    search = GridSearchCV(tree, {"max_depth": [1, 2]}, n_jobs=2, cv=3)
    print(search.fit(values, numpy.arange(30) % 2).best_params_)


def executors():
    from concurrent.futures import ProcessPoolExecutor, ThreadPoolExecutor

    yield
    for method in ("fork", "spawn"):
        context = multiprocessing.get_context(method)
        with ProcessPoolExecutor(1, mp_context=context) as pool:
            print(pool.submit(doubled, [1]).result(), list(pool.map(doubled, "ab")))
            print(pool.submit(pickle.loads, pickle.dumps([3])).result())
        with context.Pool(1) as pool:
            print(pool.map(pickle.loads, [pickle.dumps([number]) for number in (1, 2)]))
            print(pool.map(functools.partial(pickle.loads, fix_imports=False), [b"K\1."]))
    with ThreadPoolExecutor(1) as pool:
        print(pool.submit(pickle.loads, pickle.dumps([3])).result())


def by_value():
    import cloudpickle

    yield
    made = cloudpickle.loads(cloudpickle.dumps(lambda data: pickle.loads(data)))
    print(made(pickle.dumps([1])), cloudpickle.loads(cloudpickle.dumps(pickle.loads)))


def dask_schedulers():
    import dask

    yield
    dask.config.set({"multiprocessing.context": "fork"})
    for scheduler in ("synchronous", "threads", "processes"):
        total = dask.delayed(sum)([dask.delayed(doubled)(number) for number in range(4)])
        print(scheduler, total.compute(scheduler=scheduler, num_workers=2))


def data_loader():
    import torch.utils.data

    yield
    values = torch.utils.data.TensorDataset(torch.arange(6.0))
    loader = torch.utils.data.DataLoader(values, batch_size=2, num_workers=2)
    print([batch[0].tolist() for batch in loader])
    with torch.multiprocessing.get_context("fork").Pool(1) as pool:
        print(pool.map(doubled, [torch.ones(2)]))


def frames():
    import pandas

    yield
    made = pandas.DataFrame({"a": [1, 2], "b": ["x", "y"]})
    print(pickle.loads(pickle.dumps(made)).to_dict())


def dask_client():
    """Prints the kind of the error of a task whose result is refused, and of one that fails."""
    from distributed import Client, LocalCluster

    yield
    words = {"n_workers": 1, "threads_per_worker": 1, "dashboard_address": None}
    with LocalCluster(**words) as cluster, Client(cluster) as client:
        for task in (counted, failing):
            try:
                print(client.submit(task).result(timeout=600))
            except Exception as error:
                print(isinstance(error, pickle.UnpicklingError))


def counted():
    import collections

    return collections.Counter("aab")


def failing():
    raise ValueError


def begin(how, file):
    if how == "empty":
        storklocker.install(storklocker.Guard(storklocker.AllowList([]), fix_imports=True))
    else:
        honest_suites.install(file, how != "reporting")


def main(how, file, *names):
    logging.disable(logging.CRITICAL)
    if how == "without":
        honest_suites.note_imports(file)
    elif how != "last":
        begin(how, Path(file))
    programs = [globals()[name]() for name in names]
    for program in programs:
        next(program)
    if how == "last":
        begin(how, Path(file))
    for program in programs:
        next(program, None)


if __name__ == "__main__":
    main(*sys.argv[1:])

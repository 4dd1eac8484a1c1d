"""Honest programs with processes of their own print under a guard what they print without one. None
hangs: they have twenty minutes.
"""

import unittest

import common
import honest_runs


@common.needs("semaphores")
class Programs(honest_runs.Comparing):
    def test_executors(self):
        self.compare("executors")

    @common.needs("module:cloudpickle", "module:dask")
    def test_dask(self):
        self.compare("dask_schedulers", "by_value")

    @common.needs("module:joblib", "module:sklearn")
    def test_joblib(self):
        self.compare("joblib_backends", "grid_search")


if __name__ == "__main__":
    unittest.main()

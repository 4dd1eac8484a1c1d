"""Honest programs of large libraries print under a guard what they print without one."""

import tempfile
import unittest

import common
import honest_runs


@common.needs("semaphores")
class Libraries(honest_runs.Comparing):
    @common.needs("module:torch", "module:pandas")
    def test_torch_and_pandas(self):
        self.compare("data_loader", "frames")

    @common.needs("module:distributed", "module:tornado")
    def test_a_refusal_in_a_client_of_dask(self):
        with tempfile.TemporaryDirectory() as folder:
            found = honest_runs.printed("without", folder, "dask_client")
            self.assertEqual(found, "Counter({'a': 2, 'b': 1})\nFalse\n")  # the control
            self.assertEqual(honest_runs.printed("empty", folder, "dask_client"), "True\nTrue\n")


if __name__ == "__main__":
    unittest.main()

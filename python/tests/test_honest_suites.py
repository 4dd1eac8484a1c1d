"""CPython's own tests, without a guard and under one that is installed, in the same interpreter:
what passes without it passes with it, but for those that are named here.
"""

import json
import os
import subprocess
import sys
import tempfile
import unittest
from pathlib import Path

import common

PROGRAM = Path(__file__).with_name("honest_suites.py")
HANGS = 1200
"""The seconds that only a hang takes."""
# What takes long tests no reader, or the same readers again.
SUITES = (
    *("test_pickle", "-test_framing_many_objects", "-test_framed_write_sizes_with_delayed_writer"),
    *("-test_multiple_unpicklings_minimal", "-test_multiple_unpicklings_unseekable", "-test_bytes"),
    *("-PyPicklerTests", "-DumpPickle_CLoadPickle", "-CDumpPickle_LoadPickle"),
    *("test_shelve", "test_copy", "test_enum"),
)
FORK = "test_multiprocessing_fork"
PROCESSES = (
    *((f"{FORK}.test_{it}" for it in ("processes", "manager", "misc"))
      if sys.version_info >= (3, 12) else (FORK,)),
    *("=WithProcessesTestQueue", "=WithProcessesTestConnection", "=TestPicklingConnections"),
    *("=WithManagerTestMyManager", "=WithManagerTestRemoteManager", "=TestSimpleQueue"),
)
"""Those that send pickles."""
DIFFERING = frozenset(
    """
    test_bad_ext_code test_bad_ext_inverted_registry test_bad_mark test_bad_stack
    test_badly_escaped_string test_find_class test_global_ext1 test_global_ext2 test_global_ext4
    test_have_gc test_immutable test_large_binstring test_load_global test_load_stack_global
    test_maxint64 test_misc_get test_negative_put test_priming_unpickler_memo test_proto
    test_protocol0_is_ascii_only test_return_correct_type test_truncated_data test_unicode
    test_unpickler
    """.split()
)
"""Those that fail under a guard: they load what it refuses, or look at what it replaces."""


def found(how, folder, names):
    """What came of each test."""
    environment = {**os.environ, "PYTHONPATH": str(common.IMPORTED_FROM)}
    words = [sys.executable, "-W", "ignore", str(PROGRAM), how, folder, *names]
    ran = subprocess.run(
        words,
        cwd=folder,
        env=environment,
        stdin=subprocess.DEVNULL,
        stdout=subprocess.PIPE,
        stderr=subprocess.STDOUT,
        timeout=HANGS,
    )
    file = Path(folder, how)
    assert file.exists(), (how, ran.returncode, ran.stdout[-2000:].decode(errors="replace"))
    return json.loads(file.read_text())


@common.needs("module:test.test_pickle")  # (Debian: libpython3.11-testsuite)
class Suites(unittest.TestCase):
    def compare(self, names, least):
        with tempfile.TemporaryDirectory() as folder:
            before = found("without", folder, names)
            self.assertGreater(sum(word == "passed" for word in before.values()), least)
            for how in ("first", "last", "reporting"):
                with self.subTest(how=how):
                    after = found(how, folder, names)
                    wrong = {
                        name: after.get(name, "did not run")
                        for name, word in before.items()
                        if word in ("passed", "skipped") and after.get(name) != word
                    }
                    self.assertEqual(
                        {name: said for name, said in wrong.items()
                         if name.rpartition(".")[2] not in DIFFERING},
                        {},
                    )

    def test_readers(self):
        self.compare(SUITES, 700)

    @common.needs("semaphores", f"module:test.{FORK}")
    def test_processes(self):
        self.compare(PROCESSES, 20)


if __name__ == "__main__":
    unittest.main()

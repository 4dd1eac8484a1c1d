"""CPython's own tests of `pickle`, through a guard that permits what they import. Run by
test_cpython.py.

The tests run twice: with the module `pickle`, where the pairs that they import are noted, and with
a guard under these pairs. Each that passes with the one passes with the other, but for the ones
below. No pickle that they load is refused for what loading it costs.
"""

import io
import pickle
import sys
import unittest

import storklocker
from storklocker._limits import NO_COSTS
from storklocker._meant import EVERYTHING
from storklocker import _names
from test import pickletester

CODES = "an extension code names an import by a number of the process: it is refused"
SUBSTITUTE = "a class that has a substitute is loaded as its substitute"
KIND = "what is no pickle is a Refused, which is an UnpicklingError, and no ValueError"
NOT_COVERED = {
    "test_bad_ext_code": CODES,
    "test_bad_ext_inverted_registry": CODES,
    "test_badly_escaped_string": KIND,
    "test_builtin_types": SUBSTITUTE,
    "test_c_methods": SUBSTITUTE,
    "test_find_class": "the fix_imports of a call is ignored: that of the guard applies",
    "test_global_ext1": CODES,
    "test_global_ext2": CODES,
    "test_global_ext4": CODES,
    "test_large_binstring": "what is no pickle is refused in other words",
    "test_load_global": "names beyond ASCII in GLOBAL are refused",
    "test_load_stack_global": KIND,
    "test_maxint64": KIND,
    "test_misc_get": "more bytes follow its pickle",
    "test_negative_put": KIND,
    "test_priming_unpickler_memo": "a memo that was set from outside is unknown to a check",
    "test_proto": KIND,
    "test_protocol0_is_ascii_only": KIND,
    "test_return_correct_type": "a persistent object that names an import is unknown to a check",
    "test_truncated_data": "what is cut is a Refused, which is an UnpicklingError, and no EOFError",
    "test_unicode": "a text with a lone surrogate is refused",
}
pairs = set()
pickles = {}
"""Those that `pickle.loads` loads, in their order."""


class Noting(pickle.Unpickler):
    """`pickle.Unpickler`, and what it imports."""

    def find_class(self, module, name):
        pairs.update([(module, name), _names.renamed((module, name))])
        return super().find_class(module, name)


class Plain:
    """The module `pickle`, with pairs noted."""

    Unpickler = Noting

    def __getattr__(self, name):
        return getattr(pickle, name)

    def load(self, file, **named):
        return Noting(file, **named).load()

    def loads(self, data, **named):
        if isinstance(data, str):
            raise TypeError("no bytes")
        made = Noting(io.BytesIO(data), **named).load()
        pickles[bytes(data)] = None
        return made


def cases(module):
    """The tests of CPython over a module that stands where `pickle` stood."""

    class Unpickling(pickletester.AbstractUnpickleTests, unittest.TestCase):
        unpickler = module.Unpickler
        bad_stack_errors = (pickle.UnpicklingError,)
        truncated_errors = (pickle.UnpicklingError, EOFError)
        truncated_data_error = (pickle.UnpicklingError, "[Tt]runcated")
        size_overflow_errors = (OverflowError, pickle.UnpicklingError)

        def loads(self, data, **named):
            return module.Unpickler(io.BytesIO(data), **named).load()

    class InMemory(
        pickletester.AbstractPickleTests, pickletester.AbstractUnpickleTests, unittest.TestCase
    ):
        bad_stack_errors = (pickle.UnpicklingError, IndexError)
        truncated_errors = (pickle.UnpicklingError, EOFError)
        truncated_data_error = (pickle.UnpicklingError, "[Tt]runcated")
        size_overflow_errors = (OverflowError, pickle.UnpicklingError)

        def dumps(self, value, protocol=None, **named):
            return module.dumps(value, protocol, **named)

        def loads(self, data, **named):
            return module.loads(data, **named)

        test_framed_write_sizes_with_delayed_writer = None
        test_find_class = None

    class Functions(pickletester.AbstractPickleModuleTests, unittest.TestCase):
        Pickler, Unpickler = module.Pickler, module.Unpickler
        dump, dumps = staticmethod(module.dump), staticmethod(module.dumps)
        load, loads = staticmethod(module.load), staticmethod(module.loads)

    class Persistent(pickletester.AbstractPersistentPicklerTests, unittest.TestCase):
        def dumps(self, value, protocol=None):
            class Pickler(module.Pickler):
                def persistent_id(inner, it):
                    return self.persistent_id(it)

            out = io.BytesIO()
            Pickler(out, protocol).dump(value)
            return out.getvalue()

        def loads(self, data, **named):
            class Unpickler(module.Unpickler):
                def persistent_load(inner, it):
                    return self.persistent_load(it)

            return Unpickler(io.BytesIO(data), **named).load()

    class IdentityPersistent(pickletester.AbstractIdentityPersistentPicklerTests, Persistent):
        def loads(self, data, **named):
            class Unpickler(module.Unpickler):
                def persistent_load(inner, it):
                    return it

            return Unpickler(io.BytesIO(data), **named).load()

        def dumps(self, value, protocol=None):
            class Pickler(module.Pickler):
                def persistent_id(inner, it):
                    return it

            out = io.BytesIO()
            Pickler(out, protocol).dump(value)
            return out.getvalue()

    class Objects(pickletester.AbstractPicklerUnpicklerObjectTests, unittest.TestCase):
        pickler_class = module.Pickler
        unpickler_class = module.Unpickler

    return [Unpickling, InMemory, Functions, Persistent, IdentityPersistent, Objects]


def ran(module):
    """What became of each test."""
    loader = unittest.defaultTestLoader
    suite = unittest.TestSuite(loader.loadTestsFromTestCase(case) for case in cases(module))
    result = unittest.TextTestRunner(stream=io.StringIO(), buffer=True).run(suite)
    said = {name_of(test): text for test, text in [*result.failures, *result.errors]}
    left = {name_of(test) for test, _ in result.skipped}
    return result.testsRun, said, left


def name_of(test):
    test = getattr(test, "test_case", test)
    return test.id().replace("__main__.cases.<locals>.", "")


def main():
    count, plain, left = ran(Plain())
    listed = [pair for pair in pairs if all(pair)]
    meant = [".".join(pair) for pair in EVERYTHING.intersection(listed)]
    guard = storklocker.Guard(storklocker.AllowList(listed, dangerous=meant), fix_imports=True)
    free = guard.like(limits=storklocker.Limits(**NO_COSTS), build="any")
    accepted = [data for data in pickles if free.check(data)]
    costly = [data for data in accepted if not guard.check(data)]
    _, guarded, _ = ran(guard)
    wrong = []
    for name in sorted(guarded):
        reason = NOT_COVERED.get(name.rpartition(".")[2])
        if name in plain:
            continue
        if reason is None:
            wrong.append(name)
            print(f"{name}\n{guarded[name]}")
        else:
            print(f"not covered: {name}: {reason}")
    print(
        f"{count} tests, {len(left)} left out by CPython, {len(plain)} fail with pickle too, "
        f"{len(wrong)} differ"
    )
    print(f"{len(accepted)} pickles, {len(costly)} cost too much: {[it[:99] for it in costly]}")
    return 1 if wrong else 0


if __name__ == "__main__":
    sys.exit(main())

"""What the ready-made lists have beside arrays, frames and state dicts: it loads, and what attacks
it under `pickle` is refused.
"""

import copy
import datetime
import functools
import importlib
import importlib.util
import io
import pickle
import struct
import subprocess
import sys
import unittest
import zipfile

from storklocker import AllowList, Guard, Misused, Refused


def text(word):
    return b"X" + struct.pack("<i", len(word)) + word.encode()


def called(module, name, *given):
    """A call of a name."""
    return f"c{module}\n{name}\n".encode() + b"(" + b"".join(given) + b"tR"


def whole(body):
    return b"\x80\x04" + body + b"."


def long(number):
    return pickle.dumps(number, 2)[2:-1]


class Widened(unittest.TestCase):
    def module(self, name):
        """A module of a library, without which the test is skipped."""
        if importlib.util.find_spec(name.partition(".")[0]) is None:
            self.skipTest(f"there is no {name}")
        return importlib.import_module(name)

    def load(self, listed, data):
        return Guard(AllowList.shipped(*listed.split())).loads(data)

    def is_misused(self, listed, data):
        with self.assertRaises(Misused):
            self.load(listed, data)

    def are_honest(self, listed, values):
        for value in values:
            for protocol in range(6):
                try:
                    data = pickle.dumps(value, protocol)
                except TypeError:  # (old protocols know no slots)
                    self.assertLess(protocol, 2)
                    continue
                with self.subTest(value=repr(value)[:60], protocol=protocol):
                    found = self.load(listed, data)
                    self.assertIs(type(found), type(value))
                    self.assertEqual(repr(found), repr(value))


class Numpy(Widened):
    def test_honest(self):
        np = self.module("numpy")
        added = pickle.dumps(np.add)
        if b"_ufunc_reconstruct" in added:  # (which NumPy 1.19 writes, and imports any module)
            with self.assertRaises(Refused):
                self.load("numpy", added)
        else:
            self.are_honest("numpy", [np.add])
        self.are_honest("numpy", [np.poly1d([1, 2]), np.sum, np.ma.masked,
                                  np.matrix([[1]]), np.rec.array([(1, 2.0)], names="a,b"),
                                  np.polynomial.Polynomial([1, 2]), np.linalg.LinAlgError("why")])

    def test_functions_are_values(self):
        np = self.module("numpy")
        data = whole(called("numpy", "concatenate", b"](]K\1a]K\2ae") + b"0N")
        self.assertIsNone(pickle.loads(data))
        self.is_misused("numpy", data)
        core, name = pickle.dumps(np.add, 0).decode().split("\n")[:2]
        core = core[1:] if name == "add" else "numpy"  # (NumPy 1.19 names what looks it up)
        self.assertEqual(pickle.loads(whole(called(core, "add", b"K\1K\2"))), 3)
        self.is_misused("numpy", whole(called(core, "add", b"K\1K\2")))


class Pandas(Widened):
    def test_honest(self):
        pd = self.module("pandas")
        pytz = self.module("pytz")
        noon = datetime.datetime(2026, 1, 2)
        self.are_honest("pandas", [
            pd.offsets.Week(weekday=2), pd.offsets.BusinessHour(), pd.offsets.Nano(1 << 40),
            pd.DateOffset(months=2), pd.offsets.CustomBusinessDay(holidays=["2026-01-01"]),
            pd.interval_range(0, 3).array, pd.arrays.SparseArray([0, 0, 1], kind="block"),
            pytz.timezone("Europe/Berlin").localize(noon), pytz.FixedOffset(60),
            pd.Timestamp(noon, tz="Europe/Berlin"), pd.errors.ParserError("why"),
        ])

    def test_a_rule_that_a_zone_lacks(self):
        pytz = self.module("pytz")
        zone, rule = pytz.timezone("Europe/Berlin"), (60, 60, "XYZ")
        data = whole(called("pytz", "_p", text("Europe/Berlin"), b"K<K<", text("XYZ")))
        self.is_misused("pandas", data)
        self.assertNotIn("XYZ", {key[2] for key in zone._tzinfos})
        pickle.loads(data)  # (the zone of the process has it now)
        found = [key for key in zone._tzinfos if key[2] == rule[2]]
        self.assertEqual(len(found), 1)
        del zone._tzinfos[found[0]]

    def test_rules_of_a_file_of_zones(self):
        """Compiled code keeps the rules under the name of the file, and reads behind their end."""
        pd, tz = self.module("pandas"), self.module("dateutil.tz")
        zone, noon = tz.gettz("Europe/Berlin"), 10**18
        if zone is None:
            self.skipTest("this machine has no zones")
        self.are_honest("datetime pandas", [
            pd.date_range("2026-01-02", periods=2, tz=zone), pd.Timestamp(noon, tz=zone)])
        mine = copy.copy(zone)
        mine._ttinfo_before, mine._trans_idx, mine._ttinfo_list = (
            zone._ttinfo_std, (zone._ttinfo_std,), [zone._ttinfo_std])
        mine._trans_list = mine._trans_list_utc = (0,)
        for changed in (mine, _renamed(zone, "/usr/share/zoneinfo/../zoneinfo/Europe/Berlin")):
            self.is_misused("pandas", pickle.dumps(pd.Timestamp(noon, tz=changed), 4))
            self.is_misused("packages", pickle.dumps(changed, 4))
        told = subprocess.run(
            [sys.executable, "-W", "ignore", "-c", _KEPT, pickle.dumps(mine, 4).hex()],
            stdout=subprocess.PIPE, encoding="utf-8", check=True).stdout
        self.assertEqual(told, "2001-09-09 02:46:40+02:00\n")  # (an hour is lacking)

    def test_a_type_is_made_of_no_text(self):
        """The text of one names a zone, which is a file."""
        kind = self.module("pandas").IntervalDtype
        called = b"\x85\x81" if "__new__" in vars(kind) else b"\x85R"  # (NEWOBJ, or a call)
        data = whole(b"cpandas.core.dtypes.dtypes\nIntervalDtype\n" + text(
            "interval[datetime64[ns, dateutil//proc/self/comm], right]") + called)
        for load, is_opened in (("pickle.loads", True), ("Guard(lists.PANDAS).loads", False)):
            told = subprocess.run(
                [sys.executable, "-W", "ignore", "-c", _OPENED.format(load), data.hex()],
                stdout=subprocess.PIPE, encoding="utf-8", check=True).stdout
            self.assertEqual(told, "opened\n" * is_opened)

    def test_indexes_longer_than_their_pickles(self):
        pd = self.module("pandas")
        if not hasattr(pd, "Int64Index"):
            self.skipTest("pandas 2 has no index that copies a range")
        for count, is_taken in ((1000, True), (10**7, False)):
            words = {"data": pd.RangeIndex(count), "name": None}
            data = pickle.dumps(_Called(pd.Index([1]).__reduce__()[0], pd.Int64Index, words), 4)
            self.assertEqual(pickle.loads(data).nbytes, 8 * count)
            if is_taken:
                self.assertEqual(len(self.load("pandas", data)), count)
            else:
                self.is_misused("pandas", data)

    def test_a_block_has_its_own_places(self):
        """An array that the pickle gives twice is written to, and the columns stay."""
        pd, np = self.module("pandas"), self.module("numpy")
        frame = pd.DataFrame(np.ones((2, 3)))
        held = frame._mgr.blocks[0]
        make, places = held.__reduce__()[0], np.array([2, 0, 1])
        if not make.__module__.startswith("pandas."):
            self.skipTest("blocks have a function that makes them since pandas 1.3")
        data = pickle.dumps((places, _Called(make, held.values, places, 2)), 4)
        found = {}
        for load in (pickle.loads, functools.partial(self.load, "pandas")):
            array, block = load(data)
            array[:] = 1 << 40
            found[load] = list(block.mgr_locs)
        self.assertEqual(list(found.values()), [[1 << 40] * 3, [2, 0, 1]])

    def test_parts_that_do_not_fit(self):
        pd = self.module("pandas")
        np = self.module("numpy")
        offsets = "pandas._libs.tslibs.offsets"
        for body in (called(offsets, "Week", b"K\1I00\n" + long(1 << 40)),
                     called(offsets, "Day", long(1 << 70)),
                     called(offsets, "BusinessHour", b"K\1I00\n]]a")):
            self.is_misused("pandas", whole(body))
        places = pickle.dumps((9, np.array([-5], "i4"), np.array([3], "i4")), 4)
        data = b"\x80\x04cpandas._libs.sparse\nBlockIndex\n" + places[2:-1] + b"R."
        self.assertEqual(pickle.loads(data).npoints, 3)
        self.is_misused("pandas", data)
        array = pd.interval_range(0, 3).array
        honest = pickle.dumps(array, 2)
        self.assertEqual(len(self.load("pandas", honest)), 3)
        short = pickle.dumps(array[:1], 2)
        self.assertEqual(len(self.load("pandas", short)), 1)

    def test_what_is_hashed_is_short(self):
        deltas = self.module("dateutil.relativedelta")
        made = deltas.relativedelta(months=1)
        self.are_honest("packages", [made, deltas.MO(2)])
        made.years = ((1,) * 2,)
        data = pickle.dumps(made, 2)
        self.assertEqual(pickle.loads(data).years, ((1, 1),))
        self.is_misused("packages", data)


class _Called:
    """Pickled as a call."""

    def __init__(self, call, *given):
        self._call, self._given = call, given

    def __reduce__(self):
        return self._call, self._given


def _renamed(zone, path):
    made = copy.copy(zone)
    made._filename = path
    return made


_KEPT = """
import pickle, sys, pandas, dateutil.tz
str(pandas.Timestamp(10**18, tz=pickle.loads(bytes.fromhex(sys.argv[1]))))
print(pandas.Timestamp(10**18, tz=dateutil.tz.gettz("Europe/Berlin")))
"""


_OPENED = """
import contextlib, pandas, pickle, sys
from storklocker import Guard, lists
sys.addaudithook(lambda event, given: event == "open" and given[0] == "/proc/self/comm"
                 and print("opened"))
with contextlib.suppress(Exception):
    {}(bytes.fromhex(sys.argv[1]))
"""


def bare_load(data):
    """What PyTorch makes of a checkpoint with any names, as before 2.6 by default."""
    import torch

    has_word = "weights_only" in (torch.load.__kwdefaults__ or ())
    words = {"weights_only": False} if has_word else {}
    return torch.load(io.BytesIO(data), **words)


def unchecked(torch):
    """Sparse tensors with indices that lie outside, or are there twice though they mustn't."""
    values, outside, twice = torch.ones(2), torch.tensor([[9, 1]]), torch.tensor([[1, 1]])
    if hasattr(torch, "_sparse_coo_tensor_unsafe"):
        return [torch._sparse_coo_tensor_unsafe(outside, values, (2,))]
    make = functools.partial(torch.sparse_coo_tensor, check_invariants=False)
    return [make(outside, values, (2,)), make(twice, values, (2,), is_coalesced=True)]


class Torch(Widened):
    def of(self, value, listed="torch"):
        """What `load_torch` makes of a checkpoint with a value, and the checkpoint."""
        torch = self.module("torch")
        from storklocker.contrib.torch import load_torch

        file = io.BytesIO()
        torch.save(value, file)
        return load_torch(file.getvalue(), Guard(AllowList.shipped(listed))), file.getvalue()

    def test_honest(self):
        torch = self.module("torch")
        kinds = [torch.sparse_coo_tensor([[0], [1]], [2.0], (2, 3)),
                 torch.quantize_per_tensor(torch.ones(3), 0.1, 2, torch.quint8)]
        if hasattr(torch.Tensor, "to_sparse_csr"):  # (not in PyTorch 1.7)
            kinds.append(torch.eye(2).to_sparse_csr())
        for value in (*kinds, torch.float16, torch.device("cpu"), torch.Size([1])):
            self.assertEqual(repr(self.of(value)[0]), repr(value))
        module = torch.nn.Sequential(torch.nn.Linear(3, 2), torch.nn.ReLU())
        found = self.of(module, "torch-nn")[0]
        self.assertEqual(repr(found(torch.ones(1, 3))), repr(module(torch.ones(1, 3))))
        with self.assertRaises(Refused):
            self.of(module)

    def test_a_module_without_hooks(self):
        torch = self.module("torch")
        module = torch.nn.Linear(1, 1)
        module.register_forward_hook(torch.Size)
        for value in (module, torch.nn.Sequential(module)):
            with self.assertRaises((Misused, Refused)):
                self.of(value, "torch-nn")
        file = io.BytesIO()
        torch.save(module, file)
        with self.assertRaises(TypeError):  # (what it calls takes other arguments)
            bare_load(file.getvalue())(torch.ones(1, 1))
        other = torch.nn.Linear(1, 1)
        other.extra_repr = "text"  # (it would stand for a method)
        with self.assertRaises(Misused):
            self.of(other, "torch-nn")

    def test_a_module_stays_as_it_was_judged(self):
        """Its dicts are the pickle's, until they are copied."""
        torch = self.module("torch")
        module = torch.nn.Linear(1, 1)
        file = io.BytesIO()
        torch.save([module, vars(module)["_forward_hooks"]], file)
        changed = io.BytesIO()
        with zipfile.ZipFile(file) as old, zipfile.ZipFile(changed, "w") as new:
            for name in old.namelist():
                data = old.read(name)
                if name.endswith("data.pkl"):
                    self.assertEqual(data[-2:], b"e.")
                    data = data[:-2] + b"K\1ctorch\nSize\nse."
                new.writestr(name, data)
        from storklocker.contrib.torch import load_torch

        bare = bare_load(changed.getvalue())
        self.assertEqual(len(bare[0]._forward_hooks), 1)
        guard = Guard(AllowList.shipped("torch-nn"))
        self.assertEqual(len(load_torch(changed.getvalue(), guard)[0]._forward_hooks), 0)

    def test_indices_that_lie_outside(self):
        torch = self.module("torch")
        held = torch._utils._sparse_tensors_to_validate
        for made in unchecked(torch):
            with self.assertRaises(RuntimeError):
                self.of(made)
            self.assertEqual(held, [])
        self.assertEqual(repr(self.of(torch.ones(2))[0]), repr(torch.ones(2)))
        data = whole(called("torch._utils", "_rebuild_sparse_tensor", b"NN"))
        self.is_misused("torch", data)
        self.is_misused("torch", whole(called("torch", "device", text("a/b"))))
        self.is_misused("torch", whole(called("torch", "Size", b"(" + long(-1) + b"t")))


class Estimators(Widened):
    def test_a_parameter_repeats_few_bounds(self):
        np, kernels = self.module("numpy"), self.module("sklearn.gaussian_process.kernels")
        for honest in (kernels.RBF([1.0, 2.0]), kernels.RBF(1.0, "fixed")):
            self.are_honest("sklearn", honest.hyperparameters)
        call = b"csklearn.gaussian_process.kernels\nHyperparameter\n("
        bounds = pickle.dumps(np.ones((1, 2)), 3)[2:-1]
        data = whole(call + text("a") + text("numeric") + bounds + long(10**7) + b"\x89t\x81")
        self.assertEqual(pickle.loads(data).bounds.nbytes, 16 * 10**7)
        for other in (data, data.replace(long(10**7), b"]"), data.replace(text("a"), b"]")):
            self.is_misused("sklearn", other)


@unittest.skipUnless(importlib.util.find_spec("pytz"), "there is no pytz")
class Told(Widened):
    def test_a_refusal_says_what_a_name_is_for(self):
        import pytz

        for protocol in (0, 4):
            data = pickle.dumps(pytz.timezone("Europe/Berlin"), protocol)
            with self.assertRaises(Refused) as raised:
                self.load("numpy", data)
            self.assertRegex(str(raised.exception), r"pytz\._p isn't on the list\. It makes time "
                             r"zones \(pytz \d[\d.]+\), and is in @\w+, .* to permit it:")


if __name__ == "__main__":
    unittest.main()

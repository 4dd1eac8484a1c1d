"""`scan` on torch's distributed checkpoints: zip files one behind another, and their places."""

import importlib.util
import io
import json
import pathlib
import pickle
import subprocess
import sys
import tempfile
import typing
import unittest
import zipfile

from common import needs
from storklocker import AllowList, lists
from storklocker.scanning import isolated, one_file, scan
from storklocker.scanning.checkpoint_places import Records
from storklocker.scanning.file import File
from storklocker.scanning.files import Files
from storklocker.scanning.following import NotFollowed
from storklocker.scanning.judging import Question
from storklocker.scanning.source import in_memory
from test_readings import EVIL, RUNS, reports
from test_scanning import tarred, zipped

ALLOW = lists.TORCH_TENSORS | AllowList([("collections", "OrderedDict")])
FRONT = b"a text in front "
USE = f"FRONT = {FRONT!r}" + """
import dataclasses, json, pathlib, pickle, sys

def dataclass(made=None, _real=dataclasses.dataclass, **how):
    if made is None:
        return lambda made: dataclass(made, **how)
    if made.__name__ == "TensorProperties":
        how["unsafe_hash"] = True  # which Python 3.11 wants of the default of a field
    return _real(made, **how)

dataclass.__kwdefaults__ = dataclasses.dataclass.__kwdefaults__  # torch 2.6 asks for `kw_only`
dataclasses.dataclass = dataclass
import torch
try:
    from torch.distributed import checkpoint
except ImportError:
    import torch.distributed._shard.checkpoint as checkpoint

asked = []
sys.addaudithook(lambda event, words: event == "pickle.find_class" and asked.append(words[1]))

def value_of(action, hidden):
    return print if action == "save print" else hidden.decode("latin-1")

def save(folder, state):
    writer = checkpoint.FileSystemWriter(folder, single_file_per_rank=True)
    checkpoint.save_state_dict(state, writer, no_dist=True)

def move(folder, action, hidden):
    path = pathlib.Path(folder, ".metadata")
    held = pickle.loads(path.read_bytes())
    [key] = [key for key in held.storage_data if key.fqn == "e"]
    record = held.storage_data[key]
    data = pathlib.Path(folder, record.relative_path).read_bytes()
    if action == "move elsewhere":
        data, record.relative_path = b"# A model: " + hidden, "README.md"
        pathlib.Path(folder, "README.md").write_bytes(data)
    end = data.rfind(FRONT) if action == "move to tensor" else data.find(FRONT)
    record.offset, record.length = end + len(FRONT), len(hidden) - len(FRONT)
    path.write_bytes(pickle.dumps(held))

def load(folder, state):
    asked.clear()
    try:
        checkpoint.load_state_dict(state, checkpoint.FileSystemReader(folder), no_dist=True)
    except BaseException:  # as torch's own is
        pass
    return list(asked)

def done(folder, action, hidden):
    state = {"w": torch.ones(3), "v": torch.tensor(list(hidden), dtype=torch.uint8)}
    if action.startswith("save"):
        return save(folder, {**state, "e": value_of(action, hidden)})
    return move(folder, action, hidden) if action != "load" else load(folder, {**state, "e": None})

print(json.dumps([done(*step) for step in eval(sys.argv[1])]))
"""


def packed():
    """A zip file whose pickle nothing shows."""
    members = (("archive/data.pkl", pickle.dumps(print, 2)), ("archive/version", b"3\n"))
    return zipped(*members, packed=zipfile.ZIP_DEFLATED)


MOVES = (
    ("move to text", b"cbuiltins\nprint\n."), ("move to tensor", pickle.dumps(print, 2)),
    ("move to tensor", b"S'builtins'\nS'print'\n\x93."), ("move to tensor", packed()),
    ("move elsewhere", b"cbuiltins\nprint\n."),
)


def has_checkpoints():
    """Whether torch has distributed checkpoints. (An import of them fails on Python 3.11.)"""
    torch = importlib.util.find_spec("torch")
    places = (torch and torch.submodule_search_locations) or ()
    return any(pathlib.Path(it, "distributed/_shard/checkpoint").exists() for it in places)


class Checkpoints(unittest.TestCase):
    def setUp(self):
        made = tempfile.TemporaryDirectory()
        self.addCleanup(made.cleanup)
        self.folder = pathlib.Path(made.name)

    def used(self, *steps):
        """What torch does: saves a tensor and a text of some bytes, moves a record, or loads. Of
        each load, the names that it asks for.
        """
        command = [sys.executable, "-c", USE, repr(steps)]
        said = subprocess.run(command, stdout=subprocess.PIPE, check=True).stdout
        return [names for names in json.loads(said) if names is not None]

    def is_red(self, folder):
        """Whether something is found, but for the names in `.metadata` itself."""
        found = scan.scan(Files([str(folder)]), Question(ALLOW))
        return any(it.is_finding and it.kind != "pickle" for it in list(found))

    @needs("module:torch")
    @unittest.skipUnless(has_checkpoints(), "torch has distributed checkpoints since 1.13")
    def test_what_torch_saves(self):
        folders = [str(self.folder / name) for name in ("honest", "object")]
        steps = zip(folders, ("save", "save print"), (bytes(range(40)), bytes(40)))
        (asked,) = self.used(*steps, (folders[1], "load", bytes(40)))
        self.assertIn("print", asked)
        self.assertEqual([self.is_red(folder) for folder in folders], [False, True])

    @needs("module:torch")
    @unittest.skipUnless(has_checkpoints(), "torch has distributed checkpoints since 1.13")
    def test_places_elsewhere(self):
        steps = []
        for number, (action, hidden) in enumerate(MOVES):
            steps += (
                (str(self.folder / str(number)), step, FRONT + hidden)
                for step in ("save", "load", action, "load")
            )
        asked = self.used(*steps)
        for number, names in enumerate(zip(asked[::2], asked[1::2])):
            self.assertEqual(["print" in it for it in names], [False, True], MOVES[number])
            self.assertTrue(self.is_red(self.folder / str(number)), MOVES[number])

    def test_what_stands_between(self):
        part = zipped(("archive/data.pkl", pickle.dumps([1], 2)), ("archive/data/0", bytes(99)))
        evil = zipped(("archive/data.pkl", pickle.dumps(print, 2)))
        hidden = FRONT + pickle.dumps(print, 2)
        for data, is_evil in (
            (part, False), (part * 3, False), (b"", False), (b"text" + part, True),
            (part + b"text" + part, True), (part * 2 + b"text", True), (part + evil + part, True),
            (evil + part, True), (part + part[:-1], True), (b"a text", True),
            (zipped(("archive/data.pkl", b"N."), ("archive/data/0", hidden)) + part, True),
        ):
            for path in ("a.distcp", "b.zip!A.DISTCP"):
                found = reports(data, ALLOW, path)
                self.assertEqual(any(it.is_finding for it in found), is_evil, (data, found))
        self.assertTrue(any(it.is_finding for it in reports(part * 2)))


def text(word):
    return b"X" + len(word).to_bytes(4, "little") + word.encode()


def state(file="__0_0.distcp", offset=b"K\0", length=b"K\1"):
    """The instructions that make the state of a record."""
    made = b"}(" + text("relative_path") + text(file) + text("offset") + offset
    return made + text("length") + length + b"u"


RECORD = b"ctorch.distributed.checkpoint.filesystem\n_StorageInfo\n"
OTHER = b"ctorch.distributed.checkpoint.metadata\nMetadataIndex\n"
WORDS = b"(" + text("__0_0.distcp") + b"K\7K\1t"
CAST = b"ctorch.distributed.checkpoint.filesystem\ncast\nN"
SEVEN = state(offset=b"K\7")
COMPUTED = SEVEN.replace(text("relative_path"), CAST + text("relative_path") + b"\x86R")
ODD = {
    "a call": RECORD + WORDS + b"R.",
    "another class": OTHER + b")\x81" + SEVEN + b"b.",
    "slots": OTHER + b")\x81(N" + SEVEN + b"tb.",
    "slots of a record": RECORD + b")\x81(N" + SEVEN + b"tb.",
    "all attributes": OTHER + b")\x81(N}(" + text("__dict__") + SEVEN + b"utb.",
    "of the class": RECORD + b"(N" + SEVEN + b"tb)\x81.",
    "a name that is computed": OTHER + b")\x81" + COMPUTED + b"b.",
    "another file": RECORD + b")\x81" + state("weights.bin", b"K\7") + b"b.",
    "a file elsewhere": RECORD + b")\x81" + state("../__0_0.distcp", b"K\7") + b"b.",
    "two states": RECORD + b")\x81" + state() + b"b" + SEVEN + b"b.",
    "the first of two": RECORD + b")\x81q\1" + state() + b"b0h\1" + SEVEN + b"b.",
    "a state that was given before": RECORD + b")\x81" + SEVEN + b"q\1bh\1b.",
}
"""Records that torch takes, and never writes."""


class Placed(pickle.Unpickler):
    """A reader without torch."""

    def find_class(self, module, name):
        return typing.cast if name == "cast" else type(name, (), {"__init__": self.begin})

    @staticmethod
    def begin(made, *words):
        for key, word in zip(("relative_path", "offset", "length"), words):
            setattr(made, key, word)


def found_in(data):
    return Records(in_memory(io.BytesIO(data)), lambda: None).found()


class Places(unittest.TestCase):
    def test_records(self):
        one = RECORD + b")\x81" + state() + b"b"
        two = RECORD + b")\x81" + state("a.distcp", b"M\0\1", b"J\0\0\1\0") + b"b"
        self.assertEqual(found_in(one + b"."), [("__0_0.distcp", 0, 1)])
        both = [("__0_0.distcp", 0, 1), ("a.distcp", 256, 65536)]
        self.assertEqual(found_in(b"](" + one + two + b"e."), both)
        self.assertEqual(found_in(b"N."), [])

    def test_what_torch_does_not_write(self):
        for name, data in ODD.items():
            with self.subTest(name):
                made = Placed(io.BytesIO(data)).load()
                self.assertNotEqual((made.relative_path, made.offset), ("__0_0.distcp", 0))
                with self.assertRaises(NotFollowed):
                    found_in(data)
                found = reports(data, ALLOW, "c/.metadata")
                self.assertIn("distcp", [it.kind for it in found if it.is_finding])

    def test_places_for_one_process(self):
        record = RECORD + b")\x81" + state() + b"b."
        for name, is_evil in (("__0.metadata", True), ("0.metadata", False), (".metadata", False)):
            found = reports(record, ALLOW, f"c/{name}")
            self.assertEqual("distcp" in [it.kind for it in found if it.is_finding], is_evil, name)

    def test_places_beside_the_values(self):
        part = zipped(("archive/data.pkl", pickle.dumps([1], 2)), ("archive/data/0", bytes(99)))
        size = len(part)
        for offset, length, is_evil in (
            (0, size, False), (size, size, False), (1, size, True), (0, size - 1, True),
            (0, 2 * size, True), (2 * size, size, True),
        ):
            numbers = (b"J" + number.to_bytes(4, "little") for number in (offset, length))
            places = RECORD + b")\x81" + state("__0_0.distcp", *numbers) + b"b."
            for found in self.all_reports(part * 2, places):
                is_red = any(it.is_finding for it in found if not it.path.endswith(".metadata"))
                self.assertEqual(is_red, is_evil, (offset, length, found))

    @needs("module:fsspec")
    def test_urls(self):
        memory = importlib.import_module("fsspec").filesystem("memory")
        self.addCleanup(memory.store.clear)
        url = "memory://c/__0_0.distcp"
        memory.pipe(url, zipped(("archive/data.pkl", b"N.")))
        process = isolated.Isolated(Question(ALLOW))
        self.addCleanup(process.end)
        for offset, is_evil in ((b"K\0", False), (b"K\7", True)):
            size = len(memory.cat(url)).to_bytes(1, "little")
            record = RECORD + b")\x81" + state(offset=offset, length=b"K" + size) + b"b."
            memory.pipe("memory://c/.metadata", record)
            (file,) = Files([url])
            for found in (one_file.scan_file(file, Question(ALLOW)), process.scan(file)):
                self.assertEqual(any(it.is_finding for it in found), is_evil, found)

    def all_reports(self, values, places):
        """The reports on these values and their places, on a disk and in containers."""
        members = (("c/__0_0.distcp", values), ("c/.metadata", places))
        yield reports(zipped(*members), ALLOW)
        yield reports(tarred(*members), ALLOW)
        with tempfile.TemporaryDirectory() as folder:
            for name, data in members:
                pathlib.Path(folder, pathlib.Path(name).name).write_bytes(data)
            yield list(scan.scan(Files([folder]), Question(ALLOW)))
            process = isolated.Isolated(Question(ALLOW))
            self.addCleanup(process.end)
            yield process.scan(File(str(pathlib.Path(folder, "__0_0.distcp"))))


class Numbers(unittest.TestCase):
    """The numbers of tensors, some of which begin like a pickle."""

    FRONT = (("m/data.pkl", b"N."), ("m/version", b"3\n"))

    def is_red(self, *members):
        found = reports(zipped(*self.FRONT, *members), ALLOW)
        return any(report.is_finding for report in found)

    def test_numbers(self):
        for tail in (bytes(40), b"\1?" * 20, bytes(range(40)), b"\5\x82.\x93" * 10):
            numbers = [bytes((code,)) + tail for code in range(256)]
            numbers += [b"\x80" + data for data in numbers]
            names = [f"m/data/{number}" for number in range(len(numbers))]
            self.assertFalse(self.is_red(*zip(names, numbers)))

    def test_pickles(self):
        other = b"ca_module\nwith_a_name\n)R."
        long = b"ccollections\nOrderedDict\n0V" + b"a" * 5_000 + b"\n0" + RUNS
        for name, data in (
            *(("m/data/0", data) for data in (RUNS, EVIL, long, b"\x80\2" + other)),
            ("m/data/x", other), ("m/others/0", other), ("n/data/0", other),
        ):
            self.assertTrue(self.is_red((name, data)), (name, data))

    def test_codes_that_nobody_registered(self):
        for code in (b"\x82\1", b"\x83\1\0", b"\x84\1\0\0\0"):
            with self.assertRaises(ValueError):
                pickle.loads(code + b")R.")
            self.assertTrue(any(it.is_finding for it in reports(code + b")R.")))
            self.assertFalse(any(it.is_finding for it in reports(code + b")R." + bytes(9))))


if __name__ == "__main__":
    unittest.main()

"""Formats whose readers run something that isn't a pickle: each has a word of its own."""

import contextlib
import importlib
import io
import json
import marshal
import os
import pickle
import py_compile
import subprocess
import sys
import tempfile
import unittest
import zipfile
from pathlib import Path

from common import needs
from storklocker.scanning import foreign
from storklocker.scanning.command import main

LAMBDA = {"config": {"layers": [{"class_name": "Lambda", "config": {}}]}}


def zipped(*names):
    held = io.BytesIO()
    with zipfile.ZipFile(held, "w") as file:
        for name in names:
            file.writestr(name, "x = 1\n")
    return held.getvalue()


def model(operation):
    """A node of an operation in a graph of TensorFlow, as far as it matters here."""
    node = b"\n\1a\x12" + bytes([len(operation)]) + operation
    graph = b"\n" + bytes([len(node)]) + node
    inner = b"\x12" + bytes([len(graph)]) + graph
    return b"\x08\1\x12" + bytes([len(inner)]) + inner


def bytecode(*header):
    return b"".join(header) + marshal.dumps(compile("x = 1", "a", "exec"))


FILES = {
    # by name: the content, the kind, and the word
    "a.pyc": (bytecode(b"\x61\r\r\n", bytes(12)), "Python bytecode", "code"),
    "old.pyc": (b"\x03\xf3\r\nabcdc\0\0\0" + bytes(9), "Python bytecode", "code"),
    "part-00000": (
        b"SEQ\6\x21%b.NullWritable\x22%b.BytesWritable\1\0*%b.compress.GzipCodec"
        % (3 * (b"org.apache.hadoop.io",)),
        "SequenceFile",
        "unreadable",
    ),
    "a.gguf": (b"GGUF\3\0\0\0" + bytes(16) + b"tokenizer.chat_template{{ x }}", "GGUF", "code"),
    "a.h5": (b"\x89HDF\r\n\x1a\n" + bytes(99) + json.dumps(LAMBDA).encode(), "HDF5", "warning"),
    "config.json": (json.dumps(LAMBDA).encode(), "Keras model", "warning"),
    "saved_model.pb": (model(b"ReadFile"), "TensorFlow model", "warning"),
    "python.pb": (model(b"EagerPyFunc"), "TensorFlow model", "warning"),
    "a.json": (b'{"py/reduce": [{"py/type": "os.system"}]}', "jsonpickle", "warning"),
    "escaped.json": (b'{"py\\/ob\\u006aect": "a.B"}', "jsonpickle", "warning"),
    "wide.json": ('{"py/object": "a.B"}'.encode("utf-16"), "jsonpickle", "warning"),
    ".zarray": (b'{"filters": [{"id": "pickle", "protocol": 5}]}', "zarr", "warning"),
    "a.yaml": (b"- !!python/object/apply:os.system [id]\n", "YAML", "warning"),
    "long.yaml": (b"a: " + b"b" * 70_000 + b"\nc: !!python/name:os.system\n", "YAML", "warning"),
    "whole.yaml": (b"!<tag:yaml.org,2002:python/module:os> ''\n", "YAML", "warning"),
    "prefix.yaml": (b"%TAG !p! tag:yaml.org,2002:python/\n--- !p!name:os.a\n", "YAML", "warning"),
    "parted.yaml": (b"%TAG !! tag:yaml.org,2002:py\n--- !!thon/name:os.a\n", "YAML", "warning"),
    "wide.yaml": ("!!python/name:os.system\n".encode("utf-16"), "YAML", "warning"),
    "a.msgpack": (
        b"\x91\x84\xc4\2nd\xc3\xc4\4type\xc4\1O\xc4\4kind\xc4\1O\xc4\4data\xc4\2N.",
        "MessagePack",
        "warning",
    ),
    "a.pth": (b"/a/folder\nimport os; os.system('id')\n", "path file", "warning"),
    "a.onnx": (b"\x08\x07j\x1b\n\x08location\x12\x0f../../etc/passwd", "ONNX", "warning"),
    "package.pt": (zipped("m/.data/extern_modules", "m/a.py"), "torch package", "warning"),
    "script.pt": (zipped("m/code/__torch__.py", "m/version"), "TorchScript", "code"),
}
HONEST = {
    "text.yaml": b"# the tag !python is no tag of PyYAML\na: python/object\nb: '!!python'\n",
    "a.json": b'{"class_name": "Dense", "py": "object", "filters": [{"id": "delta"}], "py/": 1}',
    "graph.pb": model(b"Identity"),
    "a.h5": b"\x89HDF\r\n\x1a\n" + bytes(99) + b'"class_name": "Dense"',
    "a.pth": b"/a/folder\n# import os\n",
    "a.onnx": b"\x08\x07j\x1b\n\x08location\x12\x0amodel.data",
    "a.msgpack": b"\x81\xc4\4kind\xc4\1f",
    "a.gguf": b"GGUF\3\0\0\0" + bytes(16),
}


def scanned(folder):
    """The reports on the files of a folder, by their names."""
    said = io.StringIO()
    with contextlib.redirect_stdout(said):
        status = main(["scan", "--recursive", "--format", "json", str(folder)])
    reports = {}
    for it in json.loads(said.getvalue()):
        reports.setdefault(Path(it["file"]).name, []).append((it["kind"], str(it["status"])))
    return status, reports


class Formats(unittest.TestCase):
    def setUp(self):
        held = tempfile.TemporaryDirectory()
        self.addCleanup(held.cleanup)
        self.folder = Path(held.name)

    def write(self, files):
        for name, content in files.items():
            (self.folder / name).write_bytes(content)

    def test_each_has_a_word(self):
        self.write({name: content for name, (content, _, _) in FILES.items()})
        _, reports = scanned(self.folder)
        for name, (_, kind, word) in FILES.items():
            self.assertIn((kind, word), reports[name], name)

    def test_no_format_without_a_file(self):
        all_formats = *foreign.FORMATS, *foreign.NAMED.values(), *foreign.MEMBERS.values()
        told = {it.kind for it in all_formats}
        self.assertEqual(told, {kind for _, kind, _ in FILES.values()})

    def test_honest_ones(self):
        self.write(HONEST)
        status, reports = scanned(self.folder)
        said = {word for found in reports.values() for _, word in found}
        self.assertEqual((status, said), (0, {"no pickle"}), reports)

    def test_in_a_zip_file(self):
        with zipfile.ZipFile(self.folder / "a.keras", "w") as file:
            file.writestr("config.json", json.dumps(LAMBDA))
        self.assertIn(("Keras model", "warning"), scanned(self.folder)[1]["a.keras"])

    def test_cost_is_that_of_a_pass(self):
        """The bytes that are read grow as the file does."""
        read = []
        for times in (1, 2):
            source = Counting(b"{" + b'"py/": !!python "Lambda" pickle %TAG\n' * (5_000 * times))
            self.assertEqual(list(foreign.foreign_of("a.json", source, lambda steps: None)), [])
            read.append(source.count)
        self.assertLess(read[1], 2.5 * read[0])


class Counting:
    """A source that counts what is read of it."""

    def __init__(self, data):
        self.data, self.size, self.count = data, len(data), 0

    def read(self, at, count):
        self.count += count
        return self.data[at : at + count]

    def front(self):
        return self.data[: 1 << 16]


class Readers(unittest.TestCase):
    """What the readers of these formats run."""

    def setUp(self):
        held = tempfile.TemporaryDirectory()
        self.addCleanup(held.cleanup)
        self.folder = Path(held.name)
        self.mark = self.folder / "mark"
        self.touch = f"open({str(self.mark)!r}, 'w').close()"

    def ran(self, name, kind, *words):
        """Runs a reader in a process, and says whether it ran what the file holds; scans it."""
        subprocess.run([sys.executable, *words], cwd=self.folder, capture_output=True, timeout=300)
        ran = self.mark.exists()
        self.mark.unlink() if ran else None
        self.assertTrue(ran, f"the control: {words}")
        self.assertIn(kind, [it for it, _ in scanned(self.folder)[1][name]])

    def test_bytecode(self):
        (self.folder / "a.py").write_text(self.touch)
        py_compile.compile(str(self.folder / "a.py"), cfile=str(self.folder / "b.pyc"))
        self.ran("b.pyc", "Python bytecode", "-c", "import b")

    def test_path_files(self):
        (self.folder / "a.pth").write_text(f"import os; {self.touch}\n")
        self.ran("a.pth", "path file", "-c", "import site; site.addsitedir('.')")

    @needs("module:yaml")
    def test_yaml(self):
        (self.folder / "a.yaml").write_text(f'!!python/object/apply:exec ["{self.touch}"]\n')
        self.ran("a.yaml", "YAML", "-c", "import yaml; yaml.unsafe_load(open('a.yaml'))")

    @needs("module:yaml")
    def test_yaml_with_a_prefix_of_its_own(self):
        text = f'%TAG !! tag:yaml.org,2002:pyth\n--- !!on/object/apply:exec ["{self.touch}"]\n'
        (self.folder / "a.yaml").write_text(text)
        self.ran("a.yaml", "YAML", "-c", "import yaml; yaml.unsafe_load(open('a.yaml'))")

    @needs("module:jsonpickle")
    def test_jsonpickle(self):
        call = [{"py/type": "builtins.exec"}, {"py/tuple": [self.touch]}]
        text = json.dumps({"py/reduce": call}).replace("py/reduce", "py\\/redu\\u0063e")
        (self.folder / "a.json").write_text(text)
        code = "import jsonpickle; jsonpickle.decode(open('a.json').read())"
        self.ran("a.json", "jsonpickle", "-c", code)

    @needs("module:msgpack_numpy")
    def test_msgpack_numpy(self):
        if not hasattr(importlib.import_module("msgpack_numpy"), "pickle"):
            self.skipTest("this msgpack_numpy loads no pickles")
        data = pickle.dumps(Harm(self.touch))
        held = {b"nd": True, b"type": b"O", b"kind": b"O", b"shape": [1], b"data": data}
        (self.folder / "a.msgpack").write_bytes(importlib.import_module("msgpack").packb(held))
        code = "import msgpack_numpy; msgpack_numpy.unpackb(open('a.msgpack', 'rb').read())"
        self.ran("a.msgpack", "msgpack of msgpack-numpy", "-c", code)

    @needs("module:zarr")
    def test_zarr(self):
        meta = {
            "chunks": [1], "compressor": None, "dtype": "|O", "fill_value": 0,
            "filters": [{"id": "pickle", "protocol": 5}], "order": "C", "shape": [1],
            "zarr_format": 2,
        }
        (self.folder / ".zarray").write_text(json.dumps(meta))
        (self.folder / "0").write_bytes(pickle.dumps(Harm(self.touch)))
        self.ran(".zarray", "zarr", "-c", "import zarr; zarr.open('.', mode='r')[:]")

    @needs("module:torch")
    def test_torch_packages(self):
        code = (
            "from torch.package import PackageExporter as E, PackageImporter as I\n"
            f"f = E('a.pt'); f.save_source_string('a', {self.touch!r}); f.close()\n"
            "I('a.pt').import_module('a')\n"
        )
        self.ran("a.pt", "torch package", "-c", code)


class Harm:
    def __init__(self, code):
        self.code = code

    def __reduce__(self):
        return exec, (self.code,)


if __name__ == "__main__":
    unittest.main()

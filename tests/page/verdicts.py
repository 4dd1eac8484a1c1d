"""What the page says of files, beside what `storklocker scan` says: the same words, kinds and
names, or that it can't read them.
"""

from __future__ import annotations

import bz2
import gzip
import importlib
import importlib.util
import io
import itertools
import json
import os
import pickle
import sqlite3
import subprocess
import tarfile
import tempfile
import zipfile
import zlib
from pathlib import Path
from typing import Any, Dict, Iterable, Iterator, List, Set, Tuple

import corpus
from sentences import begun, maker, scripts

HERE = Path(__file__).resolve().parent
ROOT = HERE.parent.parent
HOSTILE = b"cos\nsystem\n(S'touch pwned'\ntR."
HONEST = pickle.dumps([1, {"a": (2, 3.5)}], 4)
BUILD = b"\x80\x04ccollections\nOrderedDict\n}\x8c\x01aNsb."
KEYS = b"})" + b"2\x86" * 30 + b"Ns."
MANY = b"}" + b"K\x01\x85" + b"2\x86" * 16 + b"q\x01" + b"0" + b"h\x01Ns" * 800 + b"."
"""Keys of which none is too heavy, and all are."""
NAMES = b"\x80\x02" + b"".join(b"c%s\n0" % it for it in (
    b"__builtin__\nset", b"UserDict\nUserDict", b"copy_reg\n_reconstructor", b"urlparse\nurljoin",
)) + b"N."
ORDERED = b"ccollections\nOrderedDict\n"
CALLS = {
    "called.pickle": b"\x80\x04" + ORDERED + b")R)R.",
    "called new.pickle": b"\x80\x04" + ORDERED + b")\x81)\x81.",
    "called named.pickle": b"\x80\x04" + ORDERED + b")}\x92)}\x92.",
    "called obj.pickle": b"\x80\x04((" + ORDERED + b"oo.",
    "called inst.pickle": b"(" + b"(icollections\nOrderedDict\no.",
    "called memo.pickle": b"\x80\x04" + ORDERED + b")R\x94N\x86h\0)R\x86.",
    "called twice.pickle": b"\x80\x04" + ORDERED + b")R2)R\x86.",
    "called row.pickle": b"\x80\x04" + ORDERED + b")R.\x80\x04" + ORDERED + b")R)R.",
    "calls.pickle": b"\x80\x04N2\x86" + ORDERED + b"\x94)R0h\0)Rh\0)\x81\x87.",
    "wrapper.pickle": b"\x80\x04cjoblib.numpy_pickle\nNumpyArrayWrapper\n)\x81)R.",
}
"""Pickles that call what their own calls have made; `calls` and `wrapper` don't."""
NUMPY = 'numpy = ["dtype", "ndarray"]\n"numpy.core.multiarray" = ["_reconstruct", "scalar"]\n'
LISTS = {
    "": "version = 1\n\n[imports]\n",
    "some": 'version = 1\n[imports]\ncollections = ["OrderedDict"]\n"shop.orders" = ["Order"]\n',
    "limits": 'version = 2\n[imports]\ncollections = ["OrderedDict"]\nbuiltins = ["set"]\n'
    '"urllib.parse" = ["urljoin"]\n[limits]\nlevels = 5\nweight = 4294967295\n'
    'numbers = 20000000\n[rules]\nbuild = "any"\n',
    "numpy": f'version = 1\n[imports]\n"joblib.numpy_pickle" = ["NumpyArrayWrapper"]\n{NUMPY}'
    '"numpy._core.multiarray" = ["_reconstruct", "scalar"]\n',
}
PLACES = ("stream of pickles", "pickle")
RECORDS = b"".join(len(it).to_bytes(4, "big") + it for it in (b"}.", HOSTILE))
STORES = ("base", "gdbm", "berkeley", "lmdb", "blocks.h5", "arrow", "parquet", "zodb", "cachelib")
LESS = dict.fromkeys(("packed.bz2", "rows.npy", "django", "records", *STORES), "unreadable")
"""What the page can't unpack, or doesn't read to its end."""


class Evil:
    """Runs a command when it is loaded."""

    def __reduce__(self) -> Any:
        return os.system, ("touch pwned",)


def _ends_the_process() -> bytes:
    def dtype(code: bytes) -> bytes:
        return b"cnumpy\ndtype\n\x8c%c%s\x89\x88\x87R" % (len(code), code)

    state = b"(K\x03\x8c\x01|N\x8c\x01a\x85}\x8c\x01a" + dtype(b"O8")
    state += b"J\0\0\0\0\x86sK\x08K\x01K\x01tb"
    made = b"cnumpy.core.multiarray\n_reconstruct\ncnumpy\nndarray\nK\x00\x85C\x01b\x87R"
    made += b"(K\x01K\x03\x85" + dtype(b"V8") + state
    return b"\x80\x04" + made + b"\x89C\x18" + b"A" * 24 + b"tb."


def _zipped(*members: Any) -> bytes:
    made = io.BytesIO()
    with zipfile.ZipFile(made, "w", zipfile.ZIP_DEFLATED) as archive:
        for name, data in members:
            archive.writestr(name, data)
    return made.getvalue()


def _tarred(name: str, data: bytes) -> bytes:
    made = io.BytesIO()
    with tarfile.open(fileobj=made, mode="w") as archive:
        info = tarfile.TarInfo(name)
        info.size = len(data)
        archive.addfile(info, io.BytesIO(data))
    return made.getvalue()


def _files() -> Dict[str, bytes]:
    torch = b"\x80\x02\x8a\nl\xfc\x9cF\xf9 j\xa8P\x19." + pickle.dumps(1001, 2)
    legacy = torch + pickle.dumps({"little_endian": True}, 2)
    return {
        "hostile.pickle": HOSTILE, "honest.pickle": HONEST, "row.pickle": HONEST + HOSTILE,
        "rows.pickle": HONEST * 3, "text.txt": b"A text.\n", "cut.pickle": HONEST[:-3],
        "cut hostile.pickle": b"\x80\x04" + HOSTILE[:-1], "keys.pickle": KEYS,
        "deep.pickle": b"})" + b"\x85" * 5_000 + b"Ns.",
        "few.pickle": b"})" + b"2\x86" * 9 + b"Ns.", "many.pickle": MANY, "names.pickle": NAMES,
        "old.pickle": b"c__builtin__\nset\n.", "numbers.pickle": b"\x80\x02Nr\x80\x96\x98\0.",
        "build.pickle": BUILD, "unknown.pickle": b"cshop.orders\nOrder\n.",
        "partial.pickle": b"cfunctools\npartial\n.", "ends.pickle": _ends_the_process(),
        "behind.pickle": HONEST + bytes(400) + HOSTILE, "lines.pickle": HONEST + b"\na\n",
        "main.pickle": b"cshop.__main__\nOrder\n.",
        "inner.pickle": b"\x80\x04\x8c\x01a\x8c\x0bb.__class__\x93.",
        "extension.pickle": b"\x80\x02\x82\x01.", "hidden.pickle": b"\x80\x04NN\x93.",
        "packed.gz": gzip.compress(HOSTILE, mtime=0), "packed.zlib": zlib.compress(HONEST),
        "packed.bz2": bz2.compress(HOSTILE), "a.tar": _tarred("a.pickle", b"\x80\x02" + HOSTILE),
        "model.zip": _zipped(("m/data.pkl", HOSTILE), ("m/version", b"3\n")),
        "calm.zip": _zipped(("m/data.pkl", HONEST), ("m/data/0", bytes(64))),
        "records": RECORDS, **_stores(), **CALLS,
        "legacy.pt": legacy + pickle.dumps({"w": 1}, 2) + pickle.dumps(["0"], 2) + bytes(24),
        "hostile legacy.pt": legacy + b"\x80\x02" + HOSTILE + pickle.dumps(["0"], 2) + bytes(24),
    }


def _stores() -> Dict[str, bytes]:
    """Hostile files that only `scan` reads."""
    evil = b"\x80\x02" + HOSTILE
    fronts = (
        b"\xce\x9a\x57\x13", bytes(12) + b"\x61\x15\x06\0",
        bytes(16) + b"\xde\xc0\xef\xbe", bytes(512) + b"\x89HDF\r\n\x1a\n", b"ARROW1\0\0",
        b"PAR1", b"FS21",
    )
    with tempfile.TemporaryDirectory() as folder:
        path = Path(folder, "base")
        base = sqlite3.connect(str(path))
        base.execute("create table kept (value blob)")
        base.execute("insert into kept values (?)", (evil,))
        base.commit()
        base.close()
        made = [path.read_bytes(), *(front + bytes(40) + evil for front in fronts)]
    django = pickle.dumps(9e9, 4) + zlib.compress(evil)
    return {**dict(zip(STORES, [*made, bytes(4) + evil])), "django": django}


def _of_libraries() -> Iterator[Any]:
    """Files of NumPy and joblib, where they are installed."""
    if not all(map(importlib.util.find_spec, ("numpy", "joblib"))):
        return
    numpy, joblib = map(importlib.import_module, ("numpy", "joblib"))
    rows = numpy.zeros(3, [("a", "i4"), ("b", "U5", (2,))])
    for name, value in (("numbers", numpy.arange(4.0)), ("rows", rows),
                        ("texts", numpy.array(["a"])), ("objects", numpy.array([1, "a"], object)),
                        ("hostile", numpy.array([Evil()], object))):
        out = io.BytesIO()
        numpy.save(out, value)
        yield f"{name}.npy", out.getvalue()
        yield f"{name}.array.pickle", pickle.dumps(value, 4)
        for packing, packed in (("", 0), (".gz", ("gzip", 3)), (".z", ("zlib", 3))):
            out = io.BytesIO()
            joblib.dump({"array": value, "behind": numpy.ones((2, 3), order="F")}, out, packed)
            yield f"{name}.joblib{packing}", out.getvalue()
    for name, value in (("behind", Evil()), ("honest", [1, 2])):
        out = io.BytesIO()
        joblib.dump({"array": numpy.arange(9), name: value}, out)
        yield f"{name}.joblib", out.getvalue()
        yield f"{name} cut.joblib", out.getvalue()[:-9]
        yield f"{name} longer.joblib", out.getvalue() + b"N."


def _scanned(name: str, data: bytes, listed: str) -> List[Dict[str, Any]]:
    from storklocker import AllowList
    from storklocker.scanning.judging import Question, reports_of

    allow = AllowList.from_text(listed) or None  # (an empty list of the page is none)
    reports = list(reports_of(name, io.BytesIO(data), Question(allow)))
    # (a file that begins otherwise may be one of cachelib's too, which the page doesn't know)
    known = [it.as_dict() for it in reports if it.kind != "cachelib"]
    return known or [it.as_dict() for it in reports]


def _kinds(parts: Iterable[Dict[str, Any]], word: str) -> Set[str]:
    """The kinds of what holds pickles."""
    return {PLACES[1] if it["kind"] in PLACES else it["kind"] for it in parts
            if it[word] not in ("no pickle", "unreadable")}


def fault(module: Path) -> str:
    """Where they differ, or nothing."""
    own = {**_files(), **dict(_of_libraries()), **corpus.rows()}
    others, read = corpus.files(), corpus.read()
    found, words = _page(module, {**own, **others, **read})
    differing = itertools.chain(
        _differing(own, found, words), _milder(others, found, words), _calmer(read, found, words)
    )
    return "".join(itertools.islice(differing, 9))


def _page(module: Path, files: Dict[str, bytes]) -> Any:
    asked = {"begun": begun(), "said": maker().said(), "lists": LISTS}
    with tempfile.TemporaryDirectory() as folder, scripts() as its:
        for name, data in files.items():
            Path(folder, name).write_bytes(data)
        inner = Path(__file__).with_suffix(".mjs")
        ran = subprocess.run(
            ["node", *map(str, (inner, its, module, folder))],
            input=json.dumps(asked), capture_output=True, text=True, check=False,
        )
    if ran.returncode:
        raise AssertionError(ran.stderr)
    told = json.loads(ran.stdout)
    return told["found"], told["words"]


def _differing(files: Dict[str, bytes], found: Any, words: List[str]) -> Iterator[str]:
    for listed, name in itertools.product(LISTS, sorted(files)):
        parts, reports = found[listed][name], _scanned(name, files[name], LISTS[listed])
        page, scan = _word(parts, "word", words), _word(reports, "status", words)
        if page == "undecided" and _may_ask(listed, scan):
            page = scan
        if name in LESS:
            is_right = page == LESS[name]
        else:
            is_right = page == scan and _told(parts) == _told(reports)
            if page != "unreadable":
                is_right &= _kinds(parts, "word") == _kinds(reports, "status")
        if not is_right:
            yield f"{name} under {listed!r}: {parts}, scan: {reports}\n"


def _milder(files: Dict[str, bytes], found: Any, words: List[str]) -> Iterator[str]:
    """Where the page says anything else but that it can't read what `scan` warns of."""
    for listed, name in itertools.product(LISTS, sorted(files)):
        parts, reports = found[listed][name], _scanned(name, files[name], LISTS[listed])
        page, scan = _word(parts, "word", words), _word(reports, "status", words)
        is_unread = page == "unreadable" and any(it["findings"] for it in reports)
        is_asked = page == "undecided" and _may_ask(listed, scan)
        is_same = page == scan and _told(parts)[1] <= _told(reports)[1]
        if not (is_same or is_unread or is_asked):
            yield f"{name} under {listed!r}: {parts}, scan: {reports}\n"


def _calmer(files: Dict[str, bytes], found: Any, words: List[str]) -> Iterator[str]:
    """Where the page has a milder word than `scan`, but for what it can't read."""
    for listed, name in itertools.product(("", "some"), sorted(files)):
        parts, reports = found[listed][name], _scanned(name, files[name], LISTS[listed])
        page, scan = _word(parts, "word", words), _word(reports, "status", words)
        if page != "unreadable" and words.index(page) > words.index(scan):
            yield f"{name} under {listed!r}: {parts}, scan: {reports}\n"


def _word(parts: List[Dict[str, Any]], key: str, words: List[str]) -> str:
    """The worst word."""
    return min((str(it[key]) for it in parts), key=words.index)


def _may_ask(listed: str, scan: str) -> bool:
    """Whether `scan` asked substitutes, which a page can't."""
    return bool(listed) and scan in ("accepted", "refused")


def _told(parts: List[Dict[str, Any]]) -> Tuple[Set[str], Set[str]]:
    """What is said of costs, and the names that are findings."""
    findings = [it for part in parts for it in part["findings"]]
    costs = {it["why"] for it in findings if it["kind"] in ("costly-keys", "changed-import")}
    names = {it["name"].replace("\0", r"\x00") for it in findings if it.get("name")}
    return costs, names

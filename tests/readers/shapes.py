"""Makes files: pickles, each shape that they are packed in, and mutations of both."""

import bz2
import collections
import datetime
import gzip
import io
import lzma
import os
import pickle
import struct
import tarfile
import warnings
import zipfile
import zlib

from odd_shapes import ODD

warnings.filterwarnings("ignore", "Duplicate name")
GOOD_VALUES = (
    [1, 2.5, "a", b"b", None, {"k": (1,)}],
    collections.OrderedDict(a=1),
    datetime.date(2026, 1, 2),
    {"w": [1.5] * 8, "name": "text" * 9},
    (),
)
GOOD = [pickle.dumps(value, protocol) for value in GOOD_VALUES for protocol in range(6)]
FRONTS = (
    b"", b"", b"", b"I1_0\n0", b"I 1\n0", b"I1\0x\n0", b"L0x1f\n0", b"F.5\n0", b"F nan\n0",
    b"V\\ud800\n0", b"X\x03\0\0\0\xed\xa0\x800", b"]p 5\n0", b"(lI1\na0", b"(0", b"Pabc\n0",
    b"\x95\x05\0\0\0\0\0\0\0", b"N0\x80\x05", b"Np0\np1\n0", b"ccollections\nOrderedDict\n0",
    b"ccollections\nOrderedDict\nI1_0\n0",
    b"\x80\x02", b"\x80\x04\x95\x02\0\0\0\0\0\0\0N0", b"}}b0", b"NNb0", b"\x8a\0" b"0",
)
ASKS = (
    b"cposix\nsystem\n(S'true'\ntR.", b"(S'true'\niposix\nsystem\n.",
    b"\x8c\x05posix\x8c\x06system\x93\x8c\x04true\x85R.", b"S'posix'\nS'system'\n\x93.",
    b"X\x05\0\0\0posixq\x05X\x06\0\0\0system\x93.", b"cbuiltins\neval\n(Vprint(1)\ntR.",
    b"cposix\nsystemX", b"cposix\n", b"cposixX", b"iposix\nsystem\n", b"cposix\nsystem\n0\xff",
    b"ccollections\nOrderedDict\n)Rcposix\nsystem\n(Vtrue\ntR\xff.",
    b"cos\0x\nsystem\n(S'true'\ntR.", b"S'posix'\nS'system'\n\x93(S'true'\ntR.",
    b"\x8c\x05posix\x940\x8c\x06system\x940h\x00h\x01\x93.",
)
DESCRS = (
    "'|O'", "'O'", "'object'", "('object', (1,))", "[('a', 'object')]", "[('a', '|O')]", "{'aO'}",
    "('<i8', '|O')", "[('a', 'O', (2,))]", "'O8'", "'=O'", "'|O4'",
)


def evil(chosen):
    """A pickle that asks for a name that isn't listed."""
    return chosen.choice(FRONTS) + chosen.choice(ASKS)


def content(chosen):
    """A pickle, mostly a harmful one, or a row of them."""
    kind = chosen.random()
    if kind < 0.7:
        return evil(chosen)
    if kind < 0.8:
        return chosen.choice(GOOD)
    if kind < 0.9:
        return chosen.choice(GOOD) + evil(chosen)
    return bytes(chosen.randrange(256) for _ in range(chosen.randrange(60)))


def _begun(front, compression):
    """A zip file to add to, behind other bytes."""
    made = io.BytesIO(front)
    try:
        return made, zipfile.ZipFile(made, "a", compression)
    except ValueError:  # 3.9 and before take these bytes for the end of an archive
        return _begun(b"", compression)


def zipped(data, chosen, name=None):
    front = b""
    if chosen.random() < 0.1:
        front = chosen.choice((b"#!x\n", b"\0" * 512, b"PK\x05\x06" + b"\n" * 18, b"MZ"))
    kinds = (zipfile.ZIP_STORED, zipfile.ZIP_DEFLATED, zipfile.ZIP_BZIP2, zipfile.ZIP_LZMA)
    made, archive = _begun(front, chosen.choice(kinds[:2] * 4 + kinds))
    with archive:
        if chosen.random() < 0.4:
            archive.writestr("archive/version", "3\n")
        name = name or chosen.choice(("archive/data.pkl", "a.pkl", "a.npy", "x", "d/", "é"))
        archive.writestr(name, data)
        if chosen.random() < 0.3:
            other = chosen.choice(("b.pkl", "archive/data.pkl", name))
            archive.writestr(other, chosen.choice(GOOD))
        if chosen.random() < 0.1:
            archive.comment = chosen.choice((b"x", b"\0" * 30, data[:99]))
    return made.getvalue()


def tarred(data, chosen, name=None):
    made = io.BytesIO()
    form = chosen.choice((tarfile.USTAR_FORMAT, tarfile.GNU_FORMAT, tarfile.PAX_FORMAT))
    names = [chosen.choice(("a.pkl", "storages", "é" * 40 + "/" + "b" * 40, "x/y"))]
    if chosen.random() < 0.3:
        names = ["storages", "tensors", "pickle"]
    with tarfile.open(fileobj=made, mode="w", format=form) as archive:
        for each in [name] if name else names:
            entry = tarfile.TarInfo(each)
            entry.size, entry.mtime = len(data), 1
            archive.addfile(entry, io.BytesIO(data))
    found = made.getvalue()
    return found if chosen.random() < 0.5 else found.rstrip(b"\0") + b"\0" * 1024


def header_again(data, place=0):
    """A tar file with the right checksum of a header."""
    header = bytearray(data[place : place + 512])
    header[148:156] = b" " * 8
    header[148:156] = b"%06o\0 " % sum(header)
    return data[:place] + bytes(header) + data[place + 512 :]


def old_tar(data, chosen):
    """A tar file without magic, or with odd numbers."""
    made = bytearray(tarred(data, chosen))
    kind = chosen.randrange(4)
    if kind == 0:
        made[257:265] = bytes(8)
    elif kind == 1:
        made[136:148] = chosen.choice((b"z" * 12, b"0o17" + bytes(8), b"1_0\0" + bytes(8)))
    elif kind == 2:
        made[156:157] = chosen.choice(b"0123456789LKSxgDZ\0".decode()).encode()
    again = bytearray(header_again(bytes(made)))
    if chosen.random() < 0.2:
        total = sum(again[:148]) + sum(again[156:512]) + 256
        again[148:156] = chosen.choice((b"\x80" + total.to_bytes(7, "big"), b"0o%05o\0" % total))
    return bytes(again)


def npy(data, chosen, descr=None):
    text = descr or chosen.choice(DESCRS)
    header = f"{{'descr': {text}, 'fortran_order': False, 'shape': (1,), }}".encode()
    version = chosen.choice((1, 1, 2, 3))
    size = len(header) + (10 if version == 1 else 12)
    header += b" " * (63 - size % 64) + b"\n"
    length = struct.pack("<H" if version == 1 else "<I", len(header))
    return b"\x93NUMPY" + bytes((version, 0)) + length + header + data


def behind_array(data, chosen):
    return npy(bytes(8), chosen, "'<i8'") + data


def alone(data, chosen):
    """LZMA alone, with other properties."""
    filters = [{
        "id": lzma.FILTER_LZMA1, "dict_size": chosen.choice((4096, 1 << 16, 1 << 20, 3 << 12)),
        "lc": chosen.randrange(4), "lp": chosen.randrange(2), "pb": chosen.randrange(4),
    }]
    return lzma.compress(data, format=lzma.FORMAT_ALONE, filters=filters)


def zf(data, chosen):
    return b"ZF" + hex(len(data)).encode().ljust(19 + chosen.randrange(2)) + zlib.compress(data)


def legacy(data, chosen):
    """torch's files of before its zip files."""
    parts = [pickle.dumps(it, 2) for it in (0x1950A86A20F9469CFC6C, 1001, {"type_sizes": {}})]
    rest = pickle.dumps([], 2)
    parts.insert(chosen.choice((3, 3, 3, 0, 1, 2)), data)
    return b"".join(parts) + rest + bytes(8 * chosen.randrange(3))


def bz2_of(data, chosen):
    return bz2.compress(data, 1)


class Asks:
    """Pickles as a call of a function that isn't listed."""

    def __reduce__(self):
        return (os.system, ("true",))


def joblib_files():
    """Files of joblib, with arrays before, behind and around what asks for a name; if it's here."""
    try:
        import joblib
        import numpy
    except ImportError:
        return []
    array, asks, found = numpy.arange(5.0), Asks(), []
    fields = numpy.zeros(2, [("a", "i4"), ("b", "U3")])
    for value in (
        [array, asks], [asks, array], numpy.array([asks]), [numpy.array([1, asks]), array],
        {"a": array, "b": fields}, [fields, numpy.array([None, "text"])], [array, array, asks],
    ):
        for protocol in (2, 3, 4):
            out = io.BytesIO()
            joblib.dump(value, out, protocol=protocol)
            found.append(out.getvalue())
    return found


JOBLIB = joblib_files()


def stored(data, chosen):
    """A file of joblib, perhaps changed, perhaps with instructions of another pickle in it."""
    made = chosen.choice(JOBLIB) if JOBLIB else data
    kind = chosen.random()
    if kind < 0.3:
        at = chosen.randrange(len(made) + 1)
        made = made[:at] + data.rstrip(b".") + made[at:]
    return mutated(made, chosen) if kind > 0.5 else made


SHAPES = (
    zipped, zipped, zipped, tarred, old_tar, npy, behind_array, alone, zf, legacy, bz2_of,
    lambda data, chosen: gzip.compress(data, 1),
    lambda data, chosen: gzip.compress(b"") + bytes(chosen.randrange(9)) + gzip.compress(data),
    lambda data, chosen: lzma.compress(data, preset=0),
    lambda data, chosen: zlib.compress(data),
    lambda data, chosen: zipped(npy(data, chosen), chosen, "a.npy"),
    stored, stored, *ODD,
    lambda data, chosen: data,
    lambda data, chosen: data,
)
NUMBERS = (0, 1, 2, 8, 22, 255, 512, 1 << 16, (1 << 31) - 1, 1 << 31, (1 << 32) - 1)


def mutated(data, chosen):
    """The bytes with a change, as a hostile hand or a bad disk makes it."""
    made = bytearray(data)
    if not made:
        return data
    for _ in range(chosen.choice((1, 1, 1, 2, 4))):
        at = chosen.randrange(len(made) + 1)
        if chosen.random() < 0.5:  # headers are at both ends
            at = chosen.choice((min(at, 63), max(len(made) - 1 - chosen.randrange(120), 0)))
        kind = chosen.randrange(8)
        if kind == 0:
            made[at : at + 1] = bytes((chosen.randrange(256),))
        elif kind == 1:
            width = chosen.choice((1, 2, 4, 8))
            number = chosen.choice((*NUMBERS, len(made), at))
            made[at : at + width] = (number % (1 << 8 * width)).to_bytes(width, "little")
        elif kind == 2:
            del made[at : at + chosen.randrange(1, 40)]
        elif kind == 3:
            made[at:at] = chosen.choice((evil(chosen), bytes(chosen.randrange(1, 600))))
        elif kind == 4:
            start = chosen.randrange(len(made) + 1)
            made[at:at] = made[start : start + chosen.randrange(600)]
        elif kind == 5:
            ends = (b"\0" * 20, b"\0" * 512, evil(chosen), b"PK\x05\x06" + bytes(18))
            made += chosen.choice(ends)
        elif kind == 6:
            made[at : at + 1] = bytes(it ^ 1 << chosen.randrange(8) for it in made[at : at + 1])
        else:
            del made[at:]
    return bytes(made)


def any_file(chosen):
    """A file of any shape, perhaps in another, perhaps mutated."""
    data = content(chosen)
    for _ in range(chosen.choice((1, 1, 1, 2, 2, 3))):
        data = chosen.choice(SHAPES)(data, chosen)
    kind = chosen.random()
    if kind < 0.1:
        other = chosen.choice(SHAPES)(content(chosen), chosen)
        data = data + other
    if kind < 0.65:
        data = mutated(data, chosen)
        if data[257:262] == b"ustar" and chosen.random() < 0.7:
            data = header_again(data)
    return data

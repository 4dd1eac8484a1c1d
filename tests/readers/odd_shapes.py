"""Shapes that no library writes, but that readers take: headers that lie, streams behind others."""

import bz2
import gzip
import io
import lzma
import random
import struct
import tarfile
import zlib

LONG = 0xFFFFFFFF
NOISE = random.Random(1).getrandbits(8 * 20_000).to_bytes(20_000, "little")


def window(data, chosen):
    """LZMA alone with a window of any size, or another size in its header."""
    size = 1 << chosen.randrange(12, 31)
    filters = [{"id": lzma.FILTER_LZMA1, "dict_size": min(size, 1 << 16)}]
    made = bytearray(lzma.compress(data, format=lzma.FORMAT_ALONE, filters=filters))
    made[1:5] = size.to_bytes(4, "little")
    if chosen.random() < 0.3:
        made[5:13] = chosen.choice((len(data), 1 << 40, 1 << 60)).to_bytes(8, "little")
    return bytes(made)


def streams(data, chosen):
    """Streams of xz and of LZMA alone, with zeros between them."""
    made, at = b"", chosen.randrange(min(9, len(data)) + 1)
    for part in (b"", data[:at], data[at:]):
        form = chosen.choice((lzma.FORMAT_XZ, lzma.FORMAT_ALONE))
        made += lzma.compress(part, form, preset=0)
        made += bytes(chosen.choice((0, 0, 4, 18, 36)))
    return made


def broken_end(data, chosen):
    """A stream with a fault that no reader gets to."""
    pack = chosen.choice((
        zlib.compress, gzip.compress, bz2.compress, lzma.compress,
        lambda data: lzma.compress(data, format=lzma.FORMAT_ALONE),
    ))
    front = chosen.choice((0, 10, 5000, 9000))
    held = b"B" + struct.pack("<I", front) + NOISE[:front] + b"0" if front else b""
    made = bytearray(pack(held + data + NOISE))
    if chosen.random() < 0.7:
        made[-chosen.randrange(1, 40) :] = chosen.choice((b"", bytes(9)))
    else:
        made[len(made) - chosen.randrange(1, 9000)] ^= 1 << chosen.randrange(8)
    return bytes(made)


def headed(data, chosen):
    """gzip with fields in its header, some of them wrong."""
    made = gzip.compress(data, 1)
    flags = chosen.randrange(256)
    fields = b"\2\0ab" if flags & 4 else b""
    fields += b"name\0" if flags & 8 else b""
    fields += b"comment\0" if flags & 16 else b""
    fields += bytes(2) if flags & 2 else b""
    return made[:3] + bytes((flags,)) + made[4:10] + fields + made[10:]


DESCRS = (
    "'O'", "u'O'", "'\\x4f'", "'|' 'O'", "r'|O'", "('O',())", "('O', 1)", "[('','O')]",
    "[(('t','n'),'O',())]", "[('a',[('b','|O')])]", "'>O'", "'|O8'", "('<i4', [('a', 'O')])",
    "('V8', [('a','O')])", "'<i8'", "'|V0'", "[('a','<i8',(0,))]", "'?'", "'b'", "'i4,O'", "'O,O'",
)
SHAPES = ("(1,)", "()", "(0,)", "(1L,)", "(True,)", "(-1,)", "(1,1,)", "(1,) # a", "[1]", "(2**2,)")


def array(data, chosen):
    """An array whose header is any literal."""
    items = [
        f"'descr': {chosen.choice(DESCRS)}", f"'fortran_order': {chosen.choice(('False', 'True'))}",
        f"'shape': {chosen.choice(SHAPES)}",
    ]
    if chosen.random() < 0.2:
        items.insert(0, "'descr': '<f8'")
    chosen.shuffle(items)
    text = chosen.choice(("", "", "", " ", "\n")) + "{" + ", ".join(items) + chosen.choice("},")
    text += chosen.choice(("", "}", ",}", "\n"))
    version = chosen.choice((1, 1, 2, 3))
    header = text.encode() + b" " * chosen.choice((0, 20, 70_000 if version > 1 else 99)) + b"\n"
    length = struct.pack("<H" if version == 1 else "<I", len(header))
    front = bytes(8) if chosen.random() < 0.1 else b""
    made = b"\x93NUMPY" + bytes((version, chosen.choice((0, 0, 0, 1)))) + length
    return made + header + front + data


def lied(chosen, number):
    """A number, or another one."""
    others = (0, 1, number + 1, 0xFFFF, 0xFFFFFFFF)
    return number if chosen.random() < 0.93 else chosen.choice(others)


def archive(data, chosen):
    """A zip file made by hand, with lies in some of its fields."""
    made = bytearray(chosen.choice((b"", b"", b"", b"#!x\n", NOISE[:99])))
    shift = chosen.choice((0, 0, len(made)))
    names = [chosen.choice((b"a.npy", b"m/data.pkl", b"x", "é".encode(), b"a/", b"a\0b"))]
    names += [b"m/version"] * chosen.randrange(2) + names * (chosen.random() < 0.1)
    central = b"".join(
        member(made, shift, name, data if name == names[0] else b"3\n", chosen) for name in names
    )
    at = len(made) - shift
    made += central
    if chosen.random() < 0.15:
        numbers = (len(names), len(names), len(central), at)
        made += struct.pack("<4sQ2H2L", b"PK\6\6", 44, 45, 45, 0, 0)
        made += struct.pack("<4Q", *(lied(chosen, number) for number in numbers))
        made += struct.pack("<4sLQL", b"PK\6\7", 0, lied(chosen, len(made) - 56), 1)
    comment = chosen.choice((b"", b"", b"", b"x", NOISE[:30]))
    made += struct.pack("<4s3H", b"PK\5\6", 0, 0, len(names))
    made += struct.pack("<H", lied(chosen, len(names)) & 0xFFFF)
    made += struct.pack("<2L", *(lied(chosen, number) & LONG for number in (len(central), at)))
    return bytes(made) + struct.pack("<H", lied(chosen, len(comment)) & 0xFFFF) + comment


def member(made, shift, name, content, chosen):
    """Adds a member. Returns its entry in the directory."""
    method = chosen.choice((0, 0, 0, 8, 8, 8, 12, 93))
    packer = {8: zlib.compressobj(1, zlib.DEFLATED, -15), 12: bz2.BZ2Compressor(1)}.get(method)
    packed = packer.compress(content) + packer.flush() if packer else content
    flags = chosen.choice((0, 0, 0, 0, 8, 8, 8, 0x800, 1, 0x20))
    sizes, at = (zlib.crc32(content), len(packed), len(content)), len(made) - shift
    extra = chosen.choice((b"", b"", b"up\0\0", struct.pack("<2H2Q", 1, 16, *sizes[:0:-1])))
    inner = (0, 0, 0) if flags & 8 else [lied(chosen, number) & LONG for number in sizes]
    made += struct.pack("<4s5H3L", b"PK\3\4", 20, flags, method, 0, 0, *inner)
    made += struct.pack("<2H", len(name), len(extra)) + name + extra + packed
    if flags & 8:
        made += chosen.choice((b"PK\7\x08", b""))
        made += struct.pack(chosen.choice(("<3L", "<L2Q")), *sizes)
    made += NOISE[: chosen.randrange(40)] if chosen.random() < 0.05 else b""
    outer, more = [lied(chosen, number) & LONG for number in (*sizes, at)], b""
    if chosen.random() < 0.1:
        outer[1:], more = [LONG] * 3, struct.pack("<2H3Q", 1, 24, len(content), len(packed), at)
    flags ^= chosen.choice((0, 0, 0, 0, 0, 8, 1))
    front = struct.pack("<4s4B4H", b"PK\1\2", 20, 3, 20, 0, flags, method, 0, 0)
    lengths = struct.pack("<5H2L", len(name), len(more), 0, 0, 0, 0, outer[3])
    return front + struct.pack("<3L", *outer[:3]) + lengths + name + more


PAX = ("path", "size", "linkpath", "GNU.sparse.major", "GNU.sparse.map", "GNU.sparse.size",
       "GNU.sparse.realsize", "GNU.sparse.name", "GNU.sparse.numblocks", "hdrcharset", "mtime", "x")
VALUES = ("0", "1", "512", "1024", "BINARY", "a.pkl", "0,512", "0,1,512,1", "9" * 20, "", "-1")


def headers(data, chosen):
    """A tar file with headers of POSIX or GNU in front of a member, and any type."""
    made = io.BytesIO()
    form = chosen.choice((tarfile.PAX_FORMAT, tarfile.PAX_FORMAT, tarfile.GNU_FORMAT))
    more = {key: chosen.choice(VALUES) for key in chosen.sample(PAX, chosen.randrange(3))}
    if chosen.random() < 0.2:
        more["size"] = str(len(data))
    everywhere = {chosen.choice(PAX): chosen.choice(VALUES)} if chosen.random() < 0.2 else {}
    with tarfile.open(fileobj=made, mode="w", format=form, pax_headers=everywhere) as packer:
        for name in chosen.choice((["a.pkl"], ["b", "a.pkl"], ["n" * 200], ["a/"])):
            entry = tarfile.TarInfo(name)
            entry.size, entry.mtime, entry.pax_headers = len(data), 1, more
            entry.type = chosen.choice((b"0", b"0", b"0", b"\0", b"7", b"S", b"M", b"Z", b"5"))
            packer.addfile(entry, io.BytesIO(data))
    return made.getvalue()


def prefixed(data, chosen):
    """Bytes in front: a mark of order, white space, zeros."""
    return chosen.choice((b"\xef\xbb\xbf", b"\xff\xfe", b"\n", b" ", b"\0", bytes(512))) + data


def timed(data, chosen):
    """A file of Django's cache: a time, perhaps behind anything else, and a packed value."""
    packer = zlib.compressobj(1, zlib.DEFLATED, chosen.randrange(9, 16))
    front = chosen.choice((b"N0" * 50, b"V" + b"a" * 99 + b"\n0", b"Va\n", b"", b"\x80\4"))
    return front + b"I99999999999\n." + packer.compress(data) + packer.flush()


ODD = (
    timed, window, streams, broken_end, headed, array, array, archive, archive, headers, headers,
    prefixed,
)

"""What files are in which no reading finds a pickle."""

import io
import json
import pathlib
import pickle
import random
import shutil
import struct
import tempfile
import unittest
import zlib

from redis_files import redis
from storklocker.scanning.judging import Question, reports_of
from storklocker.scanning.recognized import is_safetensors
from storklocker.scanning.redis_dumps import unpacked_by_lzf
from storklocker.scanning.severity import DANGER, UNRECOGNIZED
from storklocker.scanning.source import in_memory
from storklocker.scanning.summary import Summary

EVIL = b"\x80\2cposix\nsystem\n(S'echo a hostile pickle ran'\ntR."
GOOD = pickle.dumps({"a": 1}, 2)
PNG = b"\x89PNG\r\n\x1a\n" + bytes(range(64))
BINARY = bytes(range(255, 100, -1)) * 3


def safetensors(tensors, data):
    header = json.dumps(tensors).encode()
    return len(header).to_bytes(8, "little") + header + data


def tensor(begin, end, shape, kind="U8"):
    return {"dtype": kind, "shape": shape, "data_offsets": [begin, end]}


def records(*pickles):
    return b"".join(struct.pack(">L", len(it)) + it for it in pickles)


def told(data, name="file", question=Question()):
    return list(reports_of(name, io.BytesIO(data), question))


class Kinds(unittest.TestCase):
    def test_what_is_known_and_what_is_not(self):
        for name, data, kind in (
            ("a.png", PNG, "PNG"), ("a.txt", b"A text\n", "text"), ("none", b"", "empty"),
            ("a.so", b"\x7fELF\2\1\1" + bytes(99), "ELF"),
            ("a.safetensors", safetensors({"t": tensor(0, 4, [2, 2])}, bytes(4)), "safetensors"),
        ):
            (report,) = told(data, name)
            self.assertEqual((report.why, report.findings), (kind, ()))
        for data in (BINARY, PNG[1:], safetensors({"t": tensor(0, 5, [2, 2])}, bytes(5))):
            (report,) = told(data)
            self.assertEqual((report.kind, report.findings), (UNRECOGNIZED, ()))

    def test_what_is_not_known_counts_if_it_is_asked_for(self):
        for data, is_counted in ((BINARY, True), (PNG, False), (GOOD, False)):
            for choice in ("note", UNRECOGNIZED):
                summary = Summary(choice)
                question = Question(with_unrecognized=choice == UNRECOGNIZED)
                list(summary.heard(told(data, question=question)))
                self.assertEqual(summary.is_found, is_counted and choice == UNRECOGNIZED)

    def test_safetensors(self):
        one, two = tensor(0, 4, [2, 2]), tensor(4, 12, [4], "F16")
        for tensors, size, is_right in (
            ({"a": one, "b": two}, 12, True),
            ({"a": one, "b": two, "__metadata__": {"x": "y"}}, 12, True),
            ({"a": one, "b": two}, 13, False),
            ({"a": one, "b": tensor(3, 11, [4], "F16")}, 12, False),
            ({"a": one, "b": tensor(5, 13, [4], "F16")}, 13, False),
            ({"a": tensor(0, 4, [2, 3])}, 4, False),
            ({"a": tensor(0, 4, [4], "O")}, 4, False),
            ({"a": {"dtype": "U8"}}, 4, False),
        ):
            source = in_memory(io.BytesIO(safetensors(tensors, bytes(size))))
            self.assertEqual(is_safetensors(source), is_right, tensors)

    def test_a_length_that_begins_like_a_pickle(self):
        with self.assertRaises(pickle.UnpicklingError):
            pickle.loads(b"\x80\2" + bytes(6))
        header = json.dumps({"a": tensor(0, 4, [4])}).encode()
        for number in range(6):
            length = 0x80 | number << 8
            data = length.to_bytes(8, "little") + header.ljust(length) + bytes(4)
            (report,) = told(data, "a.safetensors")
            self.assertEqual((report.why, report.findings), ("safetensors", ()), number)
            self.assertEqual(bool(told(data + b".")[0].findings), number > 1)

    def test_pickles_in_other_stores(self):
        for name, make in (
            ("records", lambda data: records(GOOD, data)),
            ("old records", lambda data: records(b"}.", data[2:] if data == EVIL else data)),
            ("cut records", lambda data: records(GOOD, data, GOOD)[: -len(GOOD)]),
            ("ZODB", lambda data: b"FS21" + bytes(40) + data),
            ("SequenceFile", lambda data: b"SEQ\6\x21org.apache.hadoop.io" + bytes(40) + data),
            ("msgpack-numpy", lambda data: b"\x85\xc4\2nd\xc3\xc4\4kind\xc4\1O" + data),
            ("Redis", lambda data: b"REDIS0010\0\1k" + bytes([len(data)]) + data),
            ("Redis, a log", lambda data: b"*3\r\n$3\r\nSET\r\n$1\r\nk\r\n$99\r\n" + data),
        ):
            bad = [it.severity for report in told(make(EVIL)) for it in report.findings]
            self.assertIn(DANGER, bad, name)
            good = [it for report in told(make(GOOD)) for it in report.findings]
            self.assertEqual([], good, name)

    @unittest.skipUnless(shutil.which("redis-server"), "redis-server isn't here")
    def test_what_redis_keeps(self):
        """The control asks Redis itself, which has read its files again."""
        data = EVIL[:-1] + b"0X\x50\0\0\0" + b"abcd" * 20 + b"."
        with tempfile.TemporaryDirectory() as folder:
            with redis(folder) as ask:
                ask(b"SET", b"other", b"some text, " * 9)
                ask(b"SET", b"packed", data)
                ask(b"HSET", b"job", b"data", zlib.compress(data))
                ask(b"SAVE")
            with redis(folder) as ask:
                self.assertEqual(ask(b"GET", b"packed"), data)
                self.assertEqual(zlib.decompress(ask(b"HGET", b"job", b"data")), data)
            dump = pathlib.Path(folder, "dump.rdb").read_bytes()
        self.assertNotIn(data, dump)
        reports = told(dump)
        kinds = {report.kind for report in reports if ("posix", "system") in report.imports}
        self.assertLessEqual({"Redis, packed", "dump of Redis, packed"}, kinds)
        self.assertIn(DANGER, {it.severity for report in reports for it in report.findings})

    def test_what_looks_packed_by_redis(self):
        chosen = random.Random(1)
        for _ in range(300):
            data = bytes(chosen.choice((0xC3, 3, 32, 64, 0xE0, 9)) for _ in range(200))
            made, end = unpacked_by_lzf(data, 150)
            self.assertLessEqual(end, len(data) + 33)
            self.assertLess(len(made), 150 + 264)
            self.assertFalse([it for it in told(b"REDIS0010" + data) if it.is_finding])


if __name__ == "__main__":
    unittest.main()

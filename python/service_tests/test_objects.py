"""`storklocker scan` of objects on a server of ranges, on one without, and on those that lie: what
they give otherwise than they have told is a finding with its place. The control reads such an
object through fsspec alone, which takes it for what it isn't.
"""

import contextlib
import http.server
import io
import pickle
import re
import subprocess
import sys
import tempfile
import threading
import time
import zipfile
from pathlib import Path
from unittest import mock

import common
from storklocker.scanning import over_http, ranges, scan
from storklocker.scanning.files import Files
from storklocker.scanning.judging import Question

NEEDS = ("fsspec", "aiohttp", "requests")
RANGE = re.compile(r"bytes=(\d+)-(\d+)")
TAG = '"one"'


def archive(member):
    """A zip file of some 9 MB with a pickle behind numbers."""
    made = io.BytesIO()
    with zipfile.ZipFile(made, "w") as opened:
        opened.writestr("archive/data/0", b"\x01" * (9 << 20))
        opened.writestr("archive/data.pkl", member)
    return made.getvalue()


CALM, HARM = archive(pickle.dumps([1])), archive(pickle.dumps(common.Command(), 4))
FIRST = pickle.dumps(["a" * 5_000_000], 4)


class Server(http.server.BaseHTTPRequestHandler):
    """Gives an object by the first word of the path: as it is, or by a lie of that name."""

    protocol_version = "HTTP/1.1"
    asked = []

    def do_HEAD(self):
        data = self.data()
        self.send_response(200)
        self.send_header("Content-Length", str(len(data)))
        self.end_headers()

    def do_GET(self):
        data, found = self.data(), RANGE.fullmatch(self.headers.get("Range", ""))
        word = self.path.split("/")[1]
        start, last = map(int, found.groups()) if found else (0, len(data) - 1)
        last = min(last, len(data) - 1)
        self.asked.append((self.path, start, last + 1))
        getattr(self, f"give_{word}", self.give)(data, start, last)

    def data(self):
        name = self.path.rpartition("/")[2]
        return {"calm": CALM, "harm": HARM, "small": FIRST[:1000]}.get(name, b"")

    def give(self, data, start, last, **said):
        """Answers with a range, unless something else is said; there is none of an empty object."""
        status, body = said.get("status", 206), said.get("body", data[start : last + 1])
        told, headers = f"bytes {start}-{last}/{len(data)}", dict(said.get("more", ()))
        if not data and status == 206:
            status, said = 416, {"told": "bytes */0"}
        self.send_response(status)
        if status != 200:
            self.send_header("Content-Range", said.get("told", told))
        self.send_header("ETag", said.get("tag", TAG))
        for name, value in {"Content-Length": str(len(body)), **headers}.items():
            self.send_header(name, value)
        self.end_headers()
        with contextlib.suppress(ConnectionError):
            self.wfile.write(body)

    def give_plain(self, data, start, last):
        """Without ranges."""
        self.give(data, start, last, body=data, status=200)

    def give_short(self, data, start, last):
        self.give(data, start, last, body=data[start:last] if start else data[: last + 1])

    def give_cut(self, data, start, last):
        size = {"Content-Length": str(last + 1 - start)}
        self.give(data, start, last, body=data[start : start + 99], more=size.items())
        self.close_connection = True

    def give_changed(self, data, start, last):
        """What was calm where it was looked at first."""
        self.give(HARM if start else data, start, last, tag='"two"' if start else TAG)

    def give_longer(self, data, start, last):
        size = len(data) + (start > 0)
        self.give(data, start, last, told=f"bytes {start}-{last}/{size}")

    def give_other(self, data, start, last):
        self.give(data, start, last, told=f"bytes 0-{last - start}/{len(data)}")

    def give_unsaid(self, data, start, last):
        self.give(data, start, last, told=f"bytes {start}-{last}/*")

    def give_once(self, data, start, last):
        self.give(data, start, last, status=200 if start else 206)

    def give_packed(self, data, start, last):
        self.give(data, start, last, more={"Content-Encoding": "gzip"}.items())

    def give_broken(self, data, start, last):
        self.give(data, start, last, status=500 if start else 206)

    def give_silent(self, data, start, last):
        """Some bytes, and then nothing, for longer than a client waits."""
        self.send_response(206)
        self.send_header("Content-Range", f"bytes {start}-{last}/{len(data)}")
        self.send_header("Content-Length", str(last + 1 - start))
        self.end_headers()
        self.wfile.write(data[:7])
        time.sleep(3)
        self.close_connection = True

    def give_endless(self, data, start, last):
        told = {"Transfer-Encoding": "chunked"}
        self.send_response(206)
        self.send_header("Content-Range", f"bytes {start}-{last}/{len(data)}")
        self.stream(told)

    def give_flood(self, data, start, last):
        self.send_response(200)
        self.stream({"Transfer-Encoding": "chunked"})

    def stream(self, headers):
        """A body without an end."""
        for name, value in headers.items():
            self.send_header(name, value)
        self.end_headers()
        part = b"10000\r\n" + b"<a href=x>" * 6553 + b"......" + b"\r\n"
        with contextlib.suppress(ConnectionError):
            for _ in range(5000):
                self.wfile.write(part)
        self.close_connection = True

    def move(self, place):
        self.send_response(302)
        self.send_header("Location", place)
        self.send_header("Content-Length", "0")
        self.end_headers()

    def give_near(self, data, start, last):
        self.move(self.path.replace("near", "as_it_is", 1))

    def give_far(self, data, start, last):
        self.move(f"http://localhost:{self.server.server_port}/as_it_is/calm")

    def give_safe(self, data, start, last):
        self.move(f"https://127.0.0.1:{self.server.server_port}/as_it_is/calm")

    def give_file(self, data, start, last):
        self.move("file:///etc/passwd")

    def log_message(self, *words):
        pass


class Quiet(http.server.ThreadingHTTPServer):
    """Says nothing of clients that go away."""

    def handle_error(self, request, client_address):
        pass


LIES = {
    "short": r"1 bytes? .*|bytes of bytes 4194304-.*up to byte 8,388,607",
    "cut": "ended it at byte 99",
    "changed": "changed while it was read, before byte",
    "longer": "changed while it was read, before byte",
    "other": "gives the range 'bytes 0-.*' for bytes",
    "unsaid": r"gives the range 'bytes 0-4194303/\*' for bytes 0 to 4194303",
    "once": "gives no range at byte",
    "packed": "packs what it was asked for as it is",
    "broken": "answers 500 at byte",
    "endless": "more than 4,194,304 bytes, from byte 0 on",
    "flood": "more than 33,554,432 bytes, from byte 0 on",
    "far": "redirects to http://localhost:",
    "safe": "redirects to https://127.0.0.1:",
    "file": "redirects to file://",
}
"""What is said of each lie."""


def run():
    """The test."""
    with Quiet(("127.0.0.1", 0), Server) as server:
        threading.Thread(target=server.serve_forever, daemon=True).start()
        base = f"http://127.0.0.1:{server.server_port}"
        control(base)
        honest(base)
        lies(base)
        silence(base)
        listing(base)
        command(base)
        server.shutdown()
    other_systems()
    common.nothing_ran()


def scanned(*paths):
    return list(scan.scan(Files(paths), Question()))


def control(base):
    """fsspec's own reader takes parts of two objects for one, and fewer bytes for all."""
    import fsspec

    with fsspec.open(f"{base}/changed/calm", "rb", block_size=1 << 20, cache_type="none") as file:
        front = file.read(1 << 10)
        file.seek(-(1 << 10), 2)
        mixed = front + file.read()
    assert mixed == CALM[:1024] + HARM[: len(CALM)][-1024:]
    member = zipfile.ZipFile(io.BytesIO(HARM)).read("archive/data.pkl")
    pickle.loads(member)
    assert [it.name for it in common.MARKS.iterdir()] == ["command"]
    (common.MARKS / "command").unlink()


def honest(base):
    """Objects as they are: what is told of them is what is told of files, and no byte is asked for
    twice.
    """
    with tempfile.TemporaryDirectory() as folder:
        for name, data in (("calm", CALM), ("harm", HARM), ("small", FIRST[:1000]), ("empty", b"")):
            path = Path(folder, name)
            path.write_bytes(data)
            [*here] = scanned(str(path))
            for word in ("as_it_is", "plain", "near"):
                del Server.asked[:]
                url = f"{base}/{word}/{name}"
                there = [named(it, url, str(path)) for it in scanned(url)]
                assert there == here, (there, here)
                if word == "as_it_is":
                    parts = sorted(part for part in Server.asked if part[0] == f"/{word}/{name}")
                    ends = [end for _, _, end in parts]
                    assert [start for _, start, _ in parts] == [0, *ends[:-1]], parts
    assert any(it.status == "dangerous" for it in scanned(f"{base}/as_it_is/harm"))


def named(report, url, path):
    """The report with the path of a file in place of a URL."""
    return report._replace(path=report.path.replace(url, path), file=path)


def lies(base):
    """Each lie is told, with its place, and the object isn't calm."""
    with mock.patch.object(over_http, "UNPACKED", 1 << 25):
        for word, said in LIES.items():
            for name in ("calm", "harm"):
                reports = scanned(f"{base}/{word}/{name}")
                assert reports[-1].status == "unreadable", (word, reports)
                assert re.search(said, reports[-1].why), (word, reports[-1].why)


def silence(base):
    """A server that says nothing any more, in a session that waits for a short time."""
    from fsspec.implementations.http import HTTPFileSystem

    HTTPFileSystem.clear_instance_cache()
    with mock.patch.object(over_http, "_SILENT", 1):
        [report] = scanned(f"{base}/silent/calm")
    HTTPFileSystem.clear_instance_cache()
    assert report.status == "unreadable" and re.search("at byte 7: |byte 0: ", report.why), report


def listing(base):
    """A page that lists a folder without an end."""
    with mock.patch.object(over_http, "_LISTING", 1 << 20):
        try:
            scanned(f"{base}/flood/")
        except OSError as error:
            assert "more than 1,048,576 bytes" in str(error), error
        else:
            raise AssertionError("an endless page was read to its end")


def command(base):
    """The command, in two processes."""
    words = [sys.executable, "-m", "storklocker", "scan", "--jobs", "2", "--no-config"]
    for word, status in (("as_it_is", 0), ("changed", 2), ("far", 2)):
        ran = subprocess.run([*words, f"{base}/{word}/calm"], capture_output=True, timeout=300)
        assert ran.returncode == status, (word, ran)


def other_systems():
    """A file system that gives fewer bytes than it tells of, and a file that changes."""
    import fsspec
    from fsspec.implementations.memory import MemoryFileSystem

    class Lying(MemoryFileSystem):
        protocol = "lying"
        store, pseudo_dirs = {}, [""]
        lie = ""

        def info(self, path, **words):
            told = super().info(path, **words)
            if self.lie == "longer":
                return {**told, "size": told["size"] + 1}
            return {**told, "ETag": str(time.monotonic())} if self.lie == "changing" else told

        @classmethod
        def _strip_protocol(cls, path):
            return "/" + path.replace("lying://", "").strip("/")

        def unstrip_protocol(self, name):
            return f"lying:/{name}"

    fsspec.register_implementation("lying", Lying, clobber=True)
    Lying().pipe_file("/object", CALM)
    assert all(it.status != "unreadable" for it in scanned("lying://object"))
    said = {"longer": "bytes came where", "changing": "changed while it was read, before byte"}
    for lie, why in said.items():
        with mock.patch.object(Lying, "lie", lie):
            last = scanned("lying://object")[-1]
            assert last.status == "unreadable" and why in last.why, last
    with mock.patch.object(ranges, "BLOCK", 1 << 16):  # many blocks
        assert all(it.status != "unreadable" for it in scanned("lying://object"))

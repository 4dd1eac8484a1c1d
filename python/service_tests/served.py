"""The daemon for tests, and clients that send what no client sends."""

import contextlib
import http.client
import json
import os
import re
import signal
import socket
import subprocess
import sys
import tempfile
import time
from pathlib import Path

import common

LIST = """version = 2

[imports]
collections = ["OrderedDict"]
datetime = ["datetime", "date"]
_codecs = ["encode"]
decimal = ["Decimal"]
jobs = ["add", "secretly_listed"]
"""
GOOD, BAD = b"ccollections\nOrderedDict\n.", b"cos\nsystem\n."
WORKER = "storklocker.scanning.isolated"


class Daemon:
    """A daemon that runs, on a free port of loopback and with a socket for clamd's protocol."""

    def __init__(self, folder, words, environment):
        self.folder, self.list = folder, folder / "allow.toml"
        self.list.write_text(LIST)
        self.log = folder / "log"
        given = ["--allow", str(self.list), "--listen", "127.0.0.1:0", "--clamd", "127.0.0.1:0"]
        command = [sys.executable, "-W", "ignore", "-m", "storklocker", "serve", *given, *words]
        with self.log.open("wb") as log:
            self.process = subprocess.Popen(
                command, stderr=log, cwd=folder, env={**os.environ, **environment}
            )
        self.port = int(self.said(r"http on 127\.0\.0\.1:(\d+)"))
        self.clamd = int(self.said(r"clamd on 127\.0\.0\.1:(\d+)"))

    def said(self, pattern, times=1):
        """Waits until the log has a pattern so often, and gives its group."""
        end = time.monotonic() + common.PATIENCE
        while True:
            found = re.findall(pattern, self.log.read_text())
            if len(found) >= times:
                return found[-1]
            assert self.process.poll() is None, f"it ended: {self.log.read_text()}"
            assert time.monotonic() < end, f"{pattern} isn't in {self.log.read_text()}"
            time.sleep(0.02)

    def ask(self, path, body=None, headers=None, method=""):
        """The status, the headers and the body that a request is answered with."""
        client = self.client()
        with contextlib.closing(client):
            client.request(method or ("GET" if body is None else "POST"), path, body, headers or {})
            answer = client.getresponse()
            return answer.status, answer.headers, answer.read()

    def client(self):
        """A client with a connection of its own."""
        return http.client.HTTPConnection("127.0.0.1", self.port, timeout=common.PATIENCE)

    def checked(self, body, path="/check", headers=None):
        """The status and the JSON that a body is answered with."""
        status, _, answer = self.ask(path, body, headers)
        return status, json.loads(answer)

    def measure(self, name):
        """A number of /metrics."""
        text = self.ask("/metrics")[2].decode()
        return int(re.search(rf"(?m)^{re.escape(name)} (\d+)$", text)[1])

    def children(self):
        """The processes of its workers."""
        listed = Path(f"/proc/{self.process.pid}/task/{self.process.pid}/children").read_text()
        return [int(it) for it in listed.split() if WORKER in command_of(int(it))]

    def sent(self, data, port=None, end=False):
        """A connection that has sent bytes."""
        connection = socket.create_connection(("127.0.0.1", port or self.port), common.PATIENCE)
        connection.sendall(data)
        if end:
            connection.shutdown(socket.SHUT_WR)
        return connection

    def told(self, data, port=None, end=False):
        """All that bytes are answered with, up to the end of the connection."""
        with self.sent(data, port, end) as connection:
            return received(connection)

    def stop(self):
        """Stops it, and gives its status."""
        if self.process.poll() is None:
            self.process.send_signal(signal.SIGTERM)
        return self.process.wait(common.PATIENCE)


@contextlib.contextmanager
def daemon(*words, **environment):
    """A daemon, which is stopped at the end."""
    with tempfile.TemporaryDirectory() as folder:
        made = Daemon(Path(folder), words, environment)
        try:
            yield made
            assert made.stop() == 0, made.log.read_text()
        finally:
            made.process.kill()
            made.process.wait()


def command_of(process):
    """The command line of a process; empty if it has ended."""
    try:
        return Path(f"/proc/{process}/cmdline").read_bytes().replace(b"\0", b" ").decode()
    except (FileNotFoundError, ProcessLookupError):
        return ""


def received(connection):
    """What comes up to the end of a connection."""
    found = bytearray()
    with contextlib.suppress(ConnectionError):
        while True:
            data = connection.recv(1 << 16)
            if not data:
                break
            found += data
    return bytes(found)


def post(path, body, *headers, length=None):
    """A request as bytes."""
    length = len(body) if length is None else length
    lines = [f"POST {path} HTTP/1.1", "Host: here", f"Content-Length: {length}", *headers, "", ""]
    return "\r\n".join(lines).encode() + body


def status_of(answer):
    """The status of an answer as bytes; 0 if there is none."""
    found = re.match(rb"HTTP/1\.1 (\d+)", answer)
    return int(found[1]) if found else 0


def instream(data, block=1 << 14):
    """What clamd's protocol sends of bytes."""
    parts = [data[at : at + block] for at in range(0, len(data), block)]
    return b"zINSTREAM\0" + b"".join(len(it).to_bytes(4, "big") + it for it in parts) + bytes(4)

"""Clients of the daemon: clamdscan as Debian has it, and those of examples/clients. A yes comes of
an answer that is one; whatever else happens is none.
"""

import http.server
import os
import re
import shutil
import subprocess
import tempfile
import threading
from pathlib import Path

import common
import poison
import served
from served import BAD, GOOD

NEEDS = ("aiohttp",)
CLIENTS = common.HERE.parent.parent / "examples/clients"
HONEST = 100
# What no client may take for a yes: the status and the body of an answer.
LIES = (
    (200, b""), (200, b"{"), (200, b"[]"), (200, b'{"accepted": false}'), (200, b'{"accepted": 1}'),
    (200, b'{"accepted": "true"}'), (200, b"null"), (201, b'{"accepted": true}'),
    (204, b""), (404, b'{"accepted": true}'), (422, b'{"accepted": true}'), (500, b"yes"),
    (503, b'{"accepted": true}'),
)
NO_REDIRECT = (302, b'{"accepted": true}')


def run():
    """The test."""
    with tempfile.TemporaryDirectory() as name:
        clients = dict(built(Path(name)))
        with served.daemon("--workers", "2") as daemon:
            clamdscan(daemon, Path(name))
            url = f"http://127.0.0.1:{daemon.port}/check"
            for language, words in clients.items():
                for data, wanted in ((GOOD, 0), (BAD, 1), (b"", 1)):
                    assert status_of([*words, url], data) == wanted, (language, data)
                assert status_of([*words, f"{url}?list=none"], GOOD) == 2, language
        lies(clients, url)
    common.nothing_ran()


def lies(clients, url):
    """Nothing that isn't a verdict is one, and neither is silence."""
    for language, words in clients.items():
        assert status_of([*words, url], GOOD) == 2, f"{language}: nobody is there"
        for lie in (*LIES, NO_REDIRECT):
            with liar(*lie) as url_of_lie:
                assert status_of([*words, url_of_lie], GOOD) == 2, (language, lie)


def status_of(words, data):
    """The status of a client that gets these bytes."""
    ran = subprocess.run(
        list(map(str, words)), input=data, capture_output=True, timeout=common.PATIENCE
    )
    return ran.returncode


def built(folder):
    """The words that run each client whose language is here."""
    yield "Python", [shutil.which("python3"), CLIENTS / "python/client.py"]
    if shutil.which("node"):
        has = subprocess.run(["node", "-e", "process.exit(typeof fetch === 'function' ? 0 : 1)"])
        if has.returncode == 0:
            yield "Node", ["node", CLIENTS / "node/client.js"]
        else:
            print("skipped: Node: node is too old: 18 is wanted, which has `fetch`")
    if shutil.which("java"):
        yield "Java", ["java", CLIENTS / "java/Client.java"]
    else:
        print("skipped: Java: there is no java")
    caches = {**os.environ, "GOCACHE": str(folder / "cache"), "GOFLAGS": "-mod=mod"}
    for language, tool, words in (
        ("Go", "go", ["build", "-o", folder / "go-client", "."]),
        ("Rust", "rustc", ["--edition=2021", "-o", folder / "rust-client", "main.rs"]),
    ):
        name = language.lower()
        if language == "Rust" and shutil.which(tool) and rust_version() < (1, 61):
            print("skipped: Rust: rustc is too old: 1.61 is wanted, which has `ExitCode`")
        elif shutil.which(tool):
            place = folder / name
            shutil.copytree(CLIENTS / name, place)
            subprocess.run([tool, *map(str, words)], cwd=place, env=caches, check=True)
            yield language, [folder / f"{name}-client"]
        else:
            print(f"skipped: {language}: there is no {tool}")


def rust_version():
    said = subprocess.run(["rustc", "--version"], stdout=subprocess.PIPE, text=True).stdout
    return tuple(map(int, re.findall(r"\d+", said)[:2]))


class liar:
    """A server that answers everything with this, as a context that gives its URL."""

    def __init__(self, status, body):
        class Handler(http.server.BaseHTTPRequestHandler):
            def do_POST(self):
                self.rfile.read(int(self.headers["Content-Length"] or 0))
                self.send_response(status)
                self.send_header("Content-Length", str(len(body)))
                self.send_header("Location", "/elsewhere")
                self.end_headers()
                self.wfile.write(body)

            do_GET = do_POST

            def log_message(self, *_):
                pass

        self._server = http.server.ThreadingHTTPServer(("127.0.0.1", 0), Handler)

    def __enter__(self):
        threading.Thread(target=self._server.serve_forever, daemon=True).start()
        return f"http://127.0.0.1:{self._server.server_port}/check"

    def __exit__(self, *_):
        self._server.shutdown()
        self._server.server_close()


def clamdscan(daemon, folder):
    """An unchanged clamdscan refuses each hostile file and passes each honest one."""
    if not shutil.which("clamdscan"):
        print("skipped: clamdscan: it isn't installed")
        return
    settings = folder / "clamd.conf"
    settings.write_text(f"TCPSocket {daemon.clamd}\nTCPAddr 127.0.0.1\n")
    words = ["clamdscan", f"--config-file={settings}", "--stream", "--no-summary"]
    for name, files in (
        ("honest", [common.pickle.dumps(common.good(it), it % 6) for it in range(HONEST)]),
        ("hostile", list(poison.shapes(common.MARKS).values()) + [BAD, GOOD + BAD]),
    ):
        place = folder / name
        place.mkdir()
        for number, data in enumerate(files):
            (place / str(number)).write_bytes(data)
        ran = subprocess.run([*words, str(place)], capture_output=True, text=True)
        found = ran.stdout.count(" FOUND\n")
        assert (ran.returncode, found) == ((1, len(files)) if name == "hostile" else (0, 0)), ran
    assert daemon.measure("storklocker_accepted_total") == HONEST
    ran = subprocess.run([*words[:2], "--ping", "1"], capture_output=True, text=True)
    assert ran.stdout == "PONG\n", ran

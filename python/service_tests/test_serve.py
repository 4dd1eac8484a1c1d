"""The daemon: it says what the commands say, describes itself, and keeps its keys to itself."""

import contextlib
import io
import json
import os
import pickle
import random
import select
import signal
import socket
import ssl
import stat
import subprocess
import sys
import tempfile
import urllib.request
import zipfile
from pathlib import Path

import common
import poison
import served
from served import BAD, GOOD
from storklocker.scanning.command import main
from storklocker.serving.routes import NOT_ALLOWED, ROUTES

NEEDS = ("aiohttp", "$openssl")
ROOT = common.HERE.parent.parent
GENERATED = 1000
TOKEN = "a-token-that-no-log-may-have-0123"


def run():
    """The test."""
    with tempfile.TemporaryDirectory() as name, served.daemon("--workers", "2") as daemon:
        agrees(daemon, Path(name))
        ends_uploads(daemon)
        reloads(daemon)
    with served.daemon("--workers", "1", "--max-bytes", "100000") as daemon:
        describes(daemon)
    keys()
    addresses()
    sockets()
    common.nothing_ran()


def bodies():
    """What is judged: the repository's pickles, hostile ones, and honest ones with faults."""
    corpus = ROOT / "tests/corpus/check.zip"
    for path in (corpus, *sorted((ROOT / "examples/pickles").iterdir())):
        yield path.read_bytes()
    with zipfile.ZipFile(corpus) as members:
        yield from map(members.read, members.namelist())
    yield from poison.shapes(common.MARKS).values()
    yield from (b"", b"text", b"PK\3\4", GOOD, BAD, GOOD + BAD, bytes(range(256)))
    chance = random.Random(7)
    for number in range(GENERATED):
        data = pickle.dumps(value(chance, 3), number % 6)
        if number % 3 == 0:
            at = chance.randrange(len(data))
            data = data[:at] + bytes([chance.randrange(256)]) + data[at + 1 :]
        yield data


def value(chance, depth):
    """A value of listed names, and sometimes of others."""
    kind = chance.randrange(10 if depth else 5)
    if kind < 5:
        good = common.good(chance.randrange(1 << 40))
        return [None, chance.random(), "text" * chance.randrange(9), good, Path("a")][kind]
    items = [value(chance, depth - 1) for _ in range(chance.randrange(4))]
    return items if kind < 8 else {str(number): it for number, it in enumerate(items)}


def agrees(daemon, folder):
    """The lines and the status of `check`, and the status of `scan`, for every body."""
    os.chdir(folder)  # (the weight of a report counts its paths)
    path, accepted, count = Path("body"), 0, 0
    client = daemon.client()
    for data in bodies():
        path.write_bytes(data)
        status, lines = command("check", daemon, path)
        answer = answered(client, data)
        code, said = answer.status, json.loads(answer.read())
        assert (said["lines"], said["status"]) == (lines, status), (data[:99], lines, said["lines"])
        assert (code, said["accepted"]) == ((200, True) if status == 0 else (422, False)), data
        count, accepted = count + 1, accepted + (code == 200)
        if count % 10 == 0:
            scans(daemon, path, data)
    assert min(accepted, count - accepted) > GENERATED // 4, (count, accepted)


def answered(client, data):
    """The answer about a body, by a connection of its own: the daemon ends one on which nothing
    comes for some time, and on a busy machine the command takes longer.
    """
    client.close()
    client.request("POST", "/check", data)
    return client.getresponse()


def scans(daemon, path, data):
    """The same of `scan`, `imports` and `explain`."""
    status, lines = command("scan", daemon, path, "--format", "json", "--no-config")
    code, said = daemon.checked(data, "/scan")
    assert (code, said) == (422 if status else 200, json.loads("".join(lines))), data[:99]
    status, lines = command("imports", None, path)
    code, said = daemon.checked(data, "/imports")
    assert (code, said["lines"]) == (422 if status else 200, lines), data[:99]
    status, lines = command("explain", None, path, "--format", "json")
    code, said = daemon.checked(data, "/explain")
    wanted = json.loads(lines[0].replace(f'"path": "{path}"', '"path": "-"'))
    assert (code, said) == (422 if status else 200, wanted), data[:99]


def command(name, daemon, path, *words):
    """The status and the lines of a command."""
    allow = ["--allow", str(daemon.list)] if daemon else []
    with contextlib.redirect_stdout(io.StringIO()) as output:
        status = main([name, *allow, *words, str(path)])
    return status, output.getvalue().splitlines()


def ends_uploads(daemon):
    """A refusal ends the upload; the verdict on all of it is the same."""
    for path, front in (
        ("/check", BAD),
        ("/scan", b"\x80\x04" + BAD),
        ("/check", b"\x80\x04" + b"N0" * 200_000 + BAD),
        ("/json", b"(lp0\n" + b"I1\na" * 100_000 + BAD),
    ):
        length = len(front) + (1 << 27)
        connection = daemon.sent(served.post(path, front, length=length))
        sent, ended = 0, False
        with contextlib.suppress(ConnectionError):
            while sent < 4 * len(front) + (1 << 20) and not ended:
                connection.sendall(bytes(1 << 14))
                sent += 1 << 14
                ended = bool(select.select([connection], [], [], 0.002)[0])
        answer = served.received(connection)
        why = b"no at" if path == "/json" else b"ImportOffList"
        assert served.status_of(answer) == 422 and why in answer, (path, sent, answer)
    status, said = daemon.checked(b"\x80\x04" + b"N0" * 20_000 + GOOD)
    assert status == 200 and said["read"] == 40_000 + 2 + len(GOOD), said


def reloads(daemon):
    """A list that changes judges from then on; one that is wrong changes nothing."""
    before = daemon.checked(GOOD)[1]["etag"]
    headers = {"If-Match": before}
    status, found, text = daemon.ask("/lists/default", headers={"If-None-Match": "other"})
    assert (status, found["ETag"]) == (200, before) and b"OrderedDict" in text
    assert daemon.ask("/lists/default", headers={"If-None-Match": before})[0] == 304
    assert daemon.checked(GOOD, headers=headers)[0] == 200
    daemon.list.write_text("nothing = that is a list")
    daemon.process.send_signal(signal.SIGHUP)
    daemon.said("The lists stay as they were")
    assert daemon.checked(GOOD)[1]["etag"] == before
    assert daemon.measure("storklocker_serve_stale_lists") == 1
    daemon.list.write_text('version = 2\n\n[imports]\nfractions = ["Fraction"]\n')
    daemon.process.send_signal(signal.SIGHUP)
    daemon.said("The lists were read")
    assert daemon.measure("storklocker_serve_stale_lists") == 0
    assert daemon.checked(GOOD)[0] == 422 and daemon.checked(b"cfractions\nFraction\n.")[0] == 200
    assert daemon.checked(GOOD, headers=headers)[0] == 412
    assert len(daemon.children()) == 2


def describes(daemon):
    """Each route is described, and each status that it has is one that is described."""
    described = json.loads(daemon.ask("/openapi.json")[2])["paths"]
    routes = {(route.method.lower(), route.path): route for route in ROUTES}
    assert {(m, path) for path, its in described.items() for m in its} == set(routes)
    for (method, path), route in routes.items():
        responses = described[path][method]["responses"]
        assert set(responses) == {str(it) for it in route.statuses}, path
        answers = statuses_of(daemon, method, path.replace("{name}", "default"))
        assert answers <= set(route.statuses), (path, answers)
        other = "PUT" if method == "post" else "POST"
        assert daemon.ask(path.replace("{name}", "x"), b"N.", method=other)[0] == NOT_ALLOWED
    assert daemon.ask("/nothing")[0] == 404


def statuses_of(daemon, method, path):
    """What requests of all kinds are answered with."""
    found = set()
    for body in (b"N.", BAD, b"(lp0\n.", bytes(100_001)) if method == "post" else (None,):
        for headers in ({}, {"Origin": "http://here"}, {"Content-Encoding": "gzip"}):
            found.add(daemon.ask(path, body, headers)[0])
        found.add(daemon.ask(path, body, {"If-Match": '"another"'})[0])
    if path in ("/check", "/scan"):
        found.add(daemon.ask(f"{path}?list=none", b"N.")[0])
        assert {200, 404, 412, 413, 415, 403, 422} <= found, (path, found)
    if method == "post":
        cut = served.post(path, b"N.", "Transfer-Encoding: chunked")
        found.add(served.status_of(daemon.told(cut, end=True)) or 400)
    return found


def keys():
    """A token is asked for, by TLS too; no log has it, nor anything of a list or a key."""
    with tempfile.TemporaryDirectory() as name:
        token, key, certificate = (Path(name, it) for it in ("token", "key", "certificate"))
        token.write_text(f"{TOKEN}\n")
        made = f"req -x509 -newkey rsa:2048 -nodes -subj /CN=localhost -days 2 -keyout {key}"
        subprocess.run(["openssl", *made.split(), "-out", certificate], check=True, stderr=-3)
        words = ["--token", token, "--tls-key", key, "--tls-certificate", certificate]
        with served.daemon("--workers", "1", *map(str, words)) as daemon:
            context = ssl.create_default_context(cafile=str(certificate))
            for given, wanted in ((TOKEN, 200), (TOKEN[:-1], 401), ("", 401), (TOKEN + "4", 401)):
                url = f"https://localhost:{daemon.port}/check"
                ask = urllib.request.Request(url, GOOD, {"Authorization": f"Bearer {given}"})
                assert https(ask, context) == wanted, given
            assert https(urllib.request.Request(f"{url[:-5]}healthz"), context) == 200
            assert https(urllib.request.Request(f"{url[:-5]}lists/default"), context) == 401
            leak = f"POST /check HTTP/1.1\r\nAuthorization: Bearer {TOKEN}\0\r\nbad\x01: \r\n\r\n"
            daemon.told(leak.encode(), end=True)
            daemon.list.write_text("jobs = secretly_listed")
            daemon.process.send_signal(signal.SIGHUP)
            daemon.said("The lists stay as they were")
            log = daemon.log.read_text()
        for secret in (TOKEN, "secretly_listed", key.read_text().splitlines()[1]):
            assert secret not in log, log


def https(ask, context):
    """The status of an answer."""
    try:
        with urllib.request.urlopen(ask, context=context, timeout=common.PATIENCE) as answer:
            return answer.status
    except urllib.error.HTTPError as error:
        return error.code


def addresses():
    """Where other machines reach it, it asks for a token, and doesn't speak clamd's protocol."""
    with tempfile.TemporaryDirectory() as name:
        allow = Path(name, "allow.toml")
        allow.write_text(served.LIST)
        short = Path(name, "token")
        short.write_text("short")
        for words, wanted in (
            (["--listen", "0.0.0.0:0"], "give --token"),
            (["--listen", "[::]:0"], "give --token"),
            (["--listen", "127.0.0.1:0", "--clamd", "0.0.0.0:0"], "has no token"),
            (["--listen", "127.0.0.1:0", "--token", str(short)], "16 bytes"),
            (["--listen", "127.0.0.1:0", "--tls-key", str(short)], "must be given together"),
            (["--listen", "nowhere:1"], "expected an address"),
        ):
            ran = subprocess.run(
                [sys.executable, "-m", "storklocker", "serve", "--allow", allow, *words],
                capture_output=True,
                text=True,
                timeout=common.PATIENCE,
            )
            assert ran.returncode == 2 and wanted in ran.stderr, (words, ran)


def sockets():
    """A socket with a path has permissions, needs no token, and is gone at the end."""
    with tempfile.TemporaryDirectory() as name:
        path, token = Path(name, "socket"), Path(name, "token")
        token.write_text(TOKEN)
        with served.daemon("--workers", "1", "--unix", str(path), "--token", str(token)) as daemon:
            assert stat.S_IMODE(path.stat().st_mode) == 0o600
            with socket.socket(socket.AF_UNIX) as connection:
                connection.connect(str(path))
                connection.sendall(served.post("/check", GOOD, "Connection: close"))
                assert served.status_of(served.received(connection)) == 200
            assert daemon.ask("/check", GOOD)[0] == 401
        assert not os.path.lexists(path)

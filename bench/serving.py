#!/usr/bin/env python3
"""Measures `storklocker serve`: the time of an answer at a steady rate, memory and workers under
hostile requests, and verdicts under full load, which must be those of `check`.

It starts a daemon of its own, with the package of PYTHONPATH. Answers are timed from the moment at
which a request was due, so that a wait counts for each one that it delays.
"""

import argparse
import asyncio
import contextlib
import io
import os
import pickle
import random
import re
import subprocess
import sys
import tempfile
import time
from pathlib import Path

import storklocker
from storklocker.scanning.answering import Checking
from storklocker.scanning.judging import Question, reports_of

LISTED = [("datetime", "datetime"), ("collections", "OrderedDict")]
GOOD, BAD = b"ccollections\nOrderedDict\n.", b"cos\nsystem\n."


class Client:
    """A connection that is kept."""

    def __init__(self, port):
        self._port, self._both = port, None

    async def status(self, body):
        """The status of an answer of `check`."""
        if self._both is None:
            self._both = await asyncio.open_connection("127.0.0.1", self._port)
        reader, writer = self._both
        writer.write(b"POST /check HTTP/1.1\r\nHost: a\r\nContent-Length: %d\r\n\r\n" % len(body))
        writer.write(body)
        head = await reader.readuntil(b"\r\n\r\n")
        await reader.readexactly(int(re.search(rb"(?i)content-length: (\d+)", head)[1]))
        if b"onnection: close" in head:
            writer.close()
            self._both = None
        return int(head[9:12])


def body_of(size):
    """A pickle of listed names of about so many bytes."""
    rows = [{"id": number, "text": "word " * 4, "pair": (number, 0.5)} for number in range(9999)]
    count = 1
    while len(pickle.dumps(rows[:count], 4)) < size:
        count += 1
    return pickle.dumps(rows[:count], 4)


async def steady(process, port, rate, seconds):
    """The times of answers at a steady rate, and what one takes of processors, which doesn't depend
    on what else runs.
    """
    spent = spent_by(process)
    clients, times, body = asyncio.Queue(), [], body_of(13_000)
    for _ in range(64):
        clients.put_nowait(Client(port))

    async def ask(due):
        client = await clients.get()
        assert await client.status(body) == 200
        times.append(time.monotonic() - due)
        clients.put_nowait(client)

    began, tasks = time.monotonic(), []
    for number in range(int(rate * seconds)):
        due = began + number / rate
        await asyncio.sleep(max(0.0, due - time.monotonic()))
        tasks.append(asyncio.ensure_future(ask(due)))
    await asyncio.gather(*tasks)
    times.sort()
    print(f"{len(body)} bytes, {rate} a second:", end="")
    for name, part in PARTS:
        print(f" {name} {1e3 * times[int(part * (len(times) - 1))]:.1f} ms,", end="")
    each = (spent_by(process) - spent) / len(times)
    print(f" {1e3 * each:.1f} ms of processors an answer")


PARTS = (("median", 0.5), ("p99", 0.99), ("worst", 1.0))


async def soak(port, seconds, most):
    """Full load: as many requests as are answered; each verdict is that of a check."""
    allow, counts = storklocker.AllowList(LISTED), [0, 0]
    end = time.monotonic() + seconds

    async def ask(number):
        client, chance = Client(port), random.Random(number)
        while time.monotonic() < end:
            data = bytearray(pickle.dumps(value(chance), chance.randrange(6)))
            if chance.randrange(2):
                data[chance.randrange(len(data))] = chance.randrange(256)
            wanted = 200 if is_accepted(bytes(data), allow) else 422
            status = await client.status(bytes(data))
            counts[0] += 1
            if status != wanted:
                counts[1] += 1
                print(f"differs: {bytes(data)!r}: {status}, not {wanted}")

    await asyncio.gather(*map(ask, range(most)))
    print(f"soak: {counts[0]} verdicts in {seconds} s, {counts[1]} differ")


def is_accepted(data, allow):
    """Whether the command `check` says yes to a file that is these bytes."""
    told = Checking()
    for _ in told.lines(reports_of("-", io.BytesIO(data), Question(allow, as_program=True)), "-"):
        pass
    return told.status == 0


def value(chance):
    """A value of listed names, or of another."""
    return [chance.randrange(9), "text" * chance.randrange(9), None, b"xy",
            {str(it): chance.random() for it in range(chance.randrange(20))}][chance.randrange(5)]


async def hostile(port, count):
    """Slow, cut, huge, pipelined and malformed requests, twenty at a time."""
    chance, gate = random.Random(1), asyncio.Semaphore(20)
    whole = b"POST /check HTTP/1.1\r\nContent-Length: %d\r\n\r\n" % len(GOOD) + GOOD
    chunks = b"POST /check HTTP/1.1\r\nTransfer-Encoding: chunked\r\n\r\n"

    def made():
        kind = chance.randrange(5)
        if kind == 0:
            return whole[: chance.randrange(len(whole))]
        if kind == 1:
            return whole.replace(b": %d" % len(GOOD), b": %d" % chance.randrange(1 << 60))
        if kind == 2:
            return whole * 20
        if kind == 3:
            return chunks + bytes(chance.randrange(256) for _ in range(300))
        data = bytearray(whole)
        data[chance.randrange(len(data))] = chance.randrange(256)
        return bytes(data)

    async def send():
        async with gate:
            with contextlib.suppress(OSError, asyncio.TimeoutError):
                reader, writer = await asyncio.open_connection("127.0.0.1", port)
                data = made()
                if chance.randrange(6) == 0:
                    writer.write(data[: len(data) // 2])
                    await asyncio.sleep(2 * chance.random())
                    data = data[len(data) // 2 :]
                writer.write(data)
                writer.write_eof()
                await asyncio.wait_for(reader.read(), 20)
                writer.close()

    await asyncio.gather(*(send() for _ in range(count)))


def children_of(process):
    """The children of a process."""
    return Path(f"/proc/{process}/task/{process}/children").read_text().split()


def spent_by(process):
    """The seconds of processors that a process and its children have taken."""
    texts = [Path(f"/proc/{it}/stat").read_text() for it in (process, *children_of(process))]
    fields = [text.rpartition(")")[2].split() for text in texts]
    return sum(int(it[11]) + int(it[12]) for it in fields) / os.sysconf("SC_CLK_TCK")


def memory_of(process):
    """The resident bytes of a process and of its children in MB, and these."""
    listed = children_of(process)
    texts = [Path(f"/proc/{it}/status").read_text() for it in (process, *listed)]
    return sum(int(re.search(r"VmRSS:\s+(\d+)", it)[1]) for it in texts) >> 10, sorted(listed)


@contextlib.contextmanager
def daemon(workers):
    """A daemon, as its process and its port."""
    with tempfile.TemporaryDirectory() as folder:
        allow, log = Path(folder, "allow.toml"), Path(folder, "log")
        storklocker.AllowList(LISTED).to_file(allow)
        words = ["serve", "--allow", allow, "--listen", "127.0.0.1:0", "--workers", str(workers)]
        with log.open("w") as output:
            process = subprocess.Popen([sys.executable, "-m", "storklocker", *words], stderr=output)
        try:
            while not (found := re.search(r"http on \S+:(\d+)", log.read_text())):
                time.sleep(0.1)
            yield process, int(found[1])
        finally:
            process.terminate()
            process.wait()


async def measure(asked, process, port):
    """All measures."""
    await steady(process, port, 20, 3)
    await steady(process, port, asked.rate, asked.seconds)
    before = memory_of(process)
    await hostile(port, asked.hostile)
    await asyncio.sleep(3)
    after = memory_of(process)
    print(f"{asked.hostile} hostile requests: {before[0]} MB before, {after[0]} MB after;", end=" ")
    print("no worker lost" if before[1] == after[1] else "WORKERS LOST")
    await soak(port, asked.soak, 2 * asked.workers)
    print(f"after the soak {memory_of(process)[0]} MB")


def main():
    parser = argparse.ArgumentParser(description=__doc__)
    parser.add_argument("--workers", type=int, default=2)
    parser.add_argument("--rate", type=int, default=200, help="requests a second")
    parser.add_argument("--seconds", type=float, default=30, help="of the steady rate")
    parser.add_argument("--hostile", type=int, default=10_000, help="requests")
    parser.add_argument("--soak", type=float, default=600, help="seconds of full load")
    asked = parser.parse_args()
    with daemon(asked.workers) as (process, port):
        asyncio.run(measure(asked, process.pid, port))


if __name__ == "__main__":
    main()

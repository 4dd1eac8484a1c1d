"""Redis on the files of a folder."""

import contextlib
import ctypes
import pathlib
import signal
import socket
import subprocess
import time

_ENDS_WITH_PARENT = 1
"""What `prctl` calls the signal that a process gets when the one that began it ends."""


def _end_with_parent():
    ctypes.CDLL(None).prctl(_ENDS_WITH_PARENT, signal.SIGKILL)


@contextlib.contextmanager
def redis(folder, *more):
    """Redis with the files of a folder, as a function that asks it."""
    path = pathlib.Path(folder, "socket")
    words = ["--port", "0", "--unixsocket", str(path), "--dir", str(folder), "--save", "", *more]
    with subprocess.Popen(
        ["redis-server", *words], stdout=subprocess.DEVNULL, preexec_fn=_end_with_parent
    ) as server:
        while not path.exists() and server.poll() is None:
            time.sleep(0.01)
        with socket.socket(socket.AF_UNIX) as opened, opened.makefile("rb") as file:
            opened.connect(str(path))

            def ask(*asked):
                parts = [b"$%d\r\n%b\r\n" % (len(it), it) for it in asked]
                opened.sendall(b"*%d\r\n%b" % (len(parts), b"".join(parts)))
                line = file.readline()
                return file.read(int(line[1:]) + 2)[:-2] if line[:1] == b"$" else line

            try:
                yield ask
            finally:
                server.kill()
    path.unlink()

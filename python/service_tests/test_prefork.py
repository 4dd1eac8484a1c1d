"""`examples/serving/prefork.py`: the children of a prefork server are added up in one answer."""

import contextlib
import os
import re
import tempfile
import time
import urllib.error
import urllib.request
from pathlib import Path

import common

NEEDS = ("prometheus_client",)
EXAMPLE = common.HERE.parents[1] / "examples" / "serving" / "prefork.py"
HARM = b"cposix\nsystem\n."


def run():
    """The test."""
    port = common.free_port()
    with tempfile.TemporaryDirectory() as folder:
        Path(folder, "counts").mkdir()
        words = {"PROMETHEUS_MULTIPROC_DIR": f"{folder}/counts"}
        with common.process(str(EXAMPLE), str(port), log=f"{folder}/log", is_killed=True, **words):
            base = f"http://127.0.0.1:{port}"
            for _ in range(10 * common.PATIENCE):
                with contextlib.suppress(OSError):
                    answer(f"{base}/metrics")
                    break
                time.sleep(0.1)
            statuses = [answer(base, HARM if number % 4 else b"N.")[0] for number in range(200)]
            assert statuses.count(200) == 50 and statuses.count(422) == 150
            text = answer(f"{base}/metrics")[1]
            assert counted(text, "storklocker_accepted_total") == 50, text
            assert counted(text, 'storklocker_refused_total{reason="ImportOffList"}') == 150, text
        children = {it.name.rpartition("_")[2] for it in Path(folder, "counts").iterdir()}
        assert len(children) > 1, f"one child answered all: {children} of {os.getpid()}"


def answer(url, data=None):
    """The status and the text of an answer."""
    try:
        with urllib.request.urlopen(url, data, timeout=common.PATIENCE) as got:
            return got.status, got.read().decode()
    except urllib.error.HTTPError as error:
        return error.code, error.read().decode()


def counted(text, name):
    return float(re.search(rf"(?m)^{re.escape(name)} (\S+)", text)[1])

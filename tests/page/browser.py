"""A headless Chromium, driven over a pipe."""

from __future__ import annotations

import base64
import json
import os
import select
import shutil
import subprocess
import tempfile
import time
from pathlib import Path
from types import TracebackType
from typing import Any, Dict, List, Optional, Type

SECONDS = 60
_WORDS = (
    "--headless=new --no-sandbox --disable-gpu --disable-dev-shm-usage --no-first-run"
    " --disable-background-networking --remote-debugging-pipe --hide-scrollbars"
).split()
_KEYS = {"Tab": 9, "End": 35, "Home": 36}


def chromium() -> Optional[str]:
    """The browser that is installed, if there is one."""
    return shutil.which("chromium") or shutil.which("chromium-browser")


class Failed(Exception):
    """The browser or the page said so."""


class Browser:
    """A browser with one page. `requests` are the addresses it asked for, `errors` what it told its
    console.
    """

    def __init__(self, program: str) -> None:
        self._folder = tempfile.mkdtemp()
        inner, self._to = os.pipe()
        self._from, outer = os.pipe()
        words = [program, *_WORDS, f"--user-data-dir={self._folder}", "about:blank"]
        # The browser reads descriptor 3 and writes to 4.
        shell = ["sh", "-c", f'exec "$@" 3<&{inner} 4>&{outer}', "sh", *words]
        self._process = subprocess.Popen(
            shell,
            pass_fds=(inner, outer),
            stdout=subprocess.DEVNULL,
            stderr=subprocess.DEVNULL,
            env={**os.environ, "HOME": self._folder},
        )
        os.close(inner)
        os.close(outer)
        self._number, self._read, self._session = 0, b"", ""
        self.requests: List[str] = []
        self.errors: List[str] = []
        targets = self.call("Target.getTargets")["targetInfos"]
        page = next(it["targetId"] for it in targets if it["type"] == "page")
        found = self.call("Target.attachToTarget", targetId=page, flatten=True)
        self._session = found["sessionId"]
        for domain in ("Page", "Runtime", "Network", "Log", "DOM"):
            self.call(f"{domain}.enable")

    def __enter__(self) -> Browser:
        return self

    def __exit__(
        self,
        kind: Optional[Type[BaseException]],
        error: Optional[BaseException],
        trace: Optional[TracebackType],
    ) -> None:
        self._process.kill()
        self._process.wait()
        os.close(self._to)
        os.close(self._from)
        shutil.rmtree(self._folder, ignore_errors=True)

    def call(self, method: str, **parameters: Any) -> Dict[str, Any]:
        """Asks the browser, and returns its answer."""
        self._number += 1
        asked = {"id": self._number, "method": method, "params": parameters}
        if self._session:
            asked["sessionId"] = self._session
        os.write(self._to, json.dumps(asked).encode() + b"\0")
        end = time.monotonic() + SECONDS
        while True:
            answer = self._next(end)
            if answer.get("id") == self._number:
                if "error" in answer:
                    raise Failed(f"{method}: {answer['error']}")
                found: Dict[str, Any] = answer["result"]
                return found

    def _next(self, end: float) -> Dict[str, Any]:
        while b"\0" not in self._read:
            ready, _, _ = select.select([self._from], [], [], max(0, end - time.monotonic()))
            data = os.read(self._from, 1 << 16) if ready else b""
            if not data:
                raise Failed("the browser doesn't answer")
            self._read += data
        line, _, self._read = self._read.partition(b"\0")
        message: Dict[str, Any] = json.loads(line)
        self._note(message)
        return message

    def _note(self, message: Dict[str, Any]) -> None:
        told = message.get("params", {})
        if message.get("method") == "Network.requestWillBeSent":
            self.requests.append(told["request"]["url"])
        elif message.get("method") == "Log.entryAdded":
            self.errors.append(told["entry"]["text"])
        elif message.get("method") == "Runtime.exceptionThrown":
            self.errors.append(json.dumps(told["exceptionDetails"]))

    def run(self, script: str) -> Any:
        """The value of an expression in the page."""
        found = self.call(
            "Runtime.evaluate", expression=script, returnByValue=True, awaitPromise=True
        )
        if "exceptionDetails" in found:
            raise Failed(json.dumps(found["exceptionDetails"]))
        return found["result"].get("value")

    def open(self, page: Path, fragment: str = "") -> None:
        """Opens a file."""
        self.call("Page.navigate", url="about:blank")
        self.call("Page.navigate", url=f"{page.resolve().as_uri()}{fragment}")
        self.wait("document.readyState === 'complete'")

    def wait(self, script: str) -> None:
        """Waits until an expression is true."""
        end = time.monotonic() + SECONDS
        while not self.run(script):
            if time.monotonic() > end:
                raise Failed(f"this never became true: {script}; the console: {self.errors}")
            time.sleep(0.02)

    def choose(self, files: List[Path]) -> None:
        """Puts files into the page's input."""
        root = self.call("DOM.getDocument")["root"]["nodeId"]
        found = self.call("DOM.querySelector", nodeId=root, selector="#files")
        paths = [str(it) for it in files]
        self.call("DOM.setFileInputFiles", files=paths, nodeId=found["nodeId"])

    def press(self, key: str) -> None:
        """Presses a key."""
        for kind in ("rawKeyDown", "keyUp"):
            self.call(
                "Input.dispatchKeyEvent", type=kind, key=key, code=key,
                windowsVirtualKeyCode=_KEYS[key],
            )

    def size(self, width: int, height: int, scheme: str = "light") -> None:
        """Sets the window and its colours."""
        self.call(
            "Emulation.setDeviceMetricsOverride",
            width=width, height=height, deviceScaleFactor=1, mobile=False,
        )
        colours = [{"name": "prefers-color-scheme", "value": scheme}]
        self.call("Emulation.setEmulatedMedia", features=colours)

    def picture(self, whole: bool = False) -> bytes:
        """A screenshot, as PNG."""
        found = self.call("Page.captureScreenshot", format="png", captureBeyondViewport=whole)
        return base64.b64decode(found["data"])

"""What is looked at in the page, one sight after the other."""

from __future__ import annotations

import base64
import bz2
import gzip
import io
import json
import pickle
import subprocess
import sys
import tarfile
import zipfile
from datetime import timedelta
from pathlib import Path
from typing import Any, Callable, Dict, NamedTuple
from urllib.parse import quote

from browser import Browser

HOSTILE = b"cos\nsystem\n(S'touch pwned'\ntR."
LIST = 'version = 1\n[imports]\ndatetime = ["timedelta"]\n'
WIDE, NARROW, PICTURE = (1280, 900), (390, 844), (980, 760)
LINES = 1_000_000
MARKUP = "<img src=x onerror=document.title='run'>"
DROP = """(async (name, data) => {
  const bytes = Uint8Array.from(atob(data), (it) => it.charCodeAt(0));
  const moved = new DataTransfer();
  moved.items.add(new File([bytes], name));
  document.getElementById('drop').dispatchEvent(
    new DragEvent('drop', { dataTransfer: moved, bubbles: true, cancelable: true }));
})"""


class Stage(NamedTuple):
    """A browser, the page and two folders: for files, and for pictures."""

    browser: Browser
    page: Path
    folder: Path
    pictures: Path

    def open(self, listed: str = "") -> None:
        """Opens the page with a list in its address."""
        self.browser.size(*WIDE)
        self.browser.open(self.page, f"#list={quote(listed, safe='')}" if listed else "")
        self.browser.wait("!document.getElementById('state').textContent.includes('starts')")

    def drop(self, name: str, data: bytes) -> None:
        """Drops a file onto the page, and waits for its answer."""
        words = ", ".join(json.dumps(it) for it in (name, base64.b64encode(data).decode()))
        self.browser.run(f"{DROP}({words})")
        self.answered()

    def choose(self, name: str, data: bytes) -> None:
        path = self.folder / name
        path.write_bytes(data)
        self.browser.choose([path])
        self.answered()

    def answered(self) -> None:
        self.browser.wait("document.getElementById('state').textContent === ''")
        self.browser.wait("!document.getElementById('answer').hidden")

    def text(self, element: str) -> str:
        found: str = self.browser.run(f"document.getElementById('{element}').innerText")
        return found

    def listed(self) -> None:
        """Waits until the instructions are there."""
        self.browser.wait("!document.getElementById('listed-lines').textContent.includes('being')")

    def picture(self, name: str) -> None:
        (self.pictures / f"{name}.png").write_bytes(self.browser.picture())


def honest() -> bytes:
    # (A guard of Python 3.8 or 3.9 loads a date through a substitute.)
    return pickle.dumps([timedelta(7), {"a": 1}], 4)


def hostile_file(stage: Stage) -> None:
    """A file that would run a command, once it is loaded."""
    loaded = [sys.executable, "-c", f"import pickle; pickle.loads({HOSTILE!r})"]
    subprocess.run(loaded, cwd=stage.folder, check=True)
    assert (stage.folder / "pwned").exists(), "the control: without a check it runs"
    stage.open(LIST)
    stage.drop("hostile.pickle", HOSTILE)
    assert stage.text("summary").startswith("Don't load the refused files"), stage.text("summary")
    line = 'refused, pickle: no at 0: ImportOffList("os","system")'
    assert stage.text("line") == line, stage.text("line")
    assert "At byte 0 it imports os.system" in stage.text("words")
    assert "Don't load it. Delete it" in stage.text("findings"), stage.text("findings")
    imports = stage.text("imports")
    assert "os.system" in imports and "dangerous: It runs a command." in imports, imports
    stage.listed()
    marked = stage.browser.run("document.querySelector('#listing .here').textContent")
    assert marked == '    0: 63 GLOBAL "os" "system"', marked
    stage.browser.size(*PICTURE)
    stage.picture("page")


def honest_file(stage: Stage) -> None:
    """A file whose imports are listed, after one was put into the list."""
    stage.open()
    stage.choose("honest.pickle", honest())
    size = len(honest())
    line = f"unjudged, pickle: {size} bytes, 1 imports"
    assert stage.text("line") == line, stage.text("line")
    assert stage.text("caution") == "1 unjudged.", stage.text("caution")
    stage.browser.run("document.querySelector('#imports button').click()")
    stage.browser.wait("document.getElementById('line').textContent.startsWith('accepted')")
    line = f"accepted, pickle: yes: {size} bytes, 1 imports"
    assert stage.text("line") == line, stage.text("line")
    assert stage.text("summary") == "A guard with this list loads these files"
    address = stage.browser.run("decodeURIComponent(location.hash)")
    assert 'datetime = ["timedelta"]' in address, address
    assert stage.browser.run("document.activeElement.id") == "summary"
    stage.open('version = "x"')
    stage.choose("honest.pickle", honest())
    assert "can't be read" in stage.text("line") and "Version" in stage.text("fault")
    stage.open('version = 1\n[imports]\nos = ["system"]\n')
    stage.browser.wait("document.getElementById('fault').innerText !== ''")
    assert stage.text("fault") == "It permits 1 danger: os.system.", stage.text("fault")


def filtered(stage: Stage) -> None:
    """Imports, filtered."""
    stage.open(LIST)
    names = [b"cos\nsystem\n0", b"ccollections\nOrderedDict\n0", b"cm\nf%d\n0" % 7]
    stage.drop("many.pickle", b"".join(names) + b"N.")
    assert stage.browser.run("document.querySelectorAll('#imports tr').length") == 3
    first = stage.browser.run("document.querySelector('#imports td').textContent")
    assert first == "os.system", first
    stage.browser.run(
        "const it = document.getElementById('filter'); it.value = 'ordered';"
        "it.dispatchEvent(new Event('input'))"
    )
    assert stage.browser.run("document.querySelectorAll('#imports tr').length") == 1
    assert stage.text("count") == "1 of 3 imports.", stage.text("count")


def containers(stage: Stage) -> None:
    """What the page unpacks, and what it can't."""
    packed, other = io.BytesIO(), io.BytesIO()
    with zipfile.ZipFile(packed, "w") as archive:
        archive.writestr("a/data.pkl", HOSTILE, zipfile.ZIP_DEFLATED)
        archive.writestr("a/data/0", bytes(64))
        archive.writestr("a/plain.pkl", honest())
    stage.open(LIST)
    stage.choose("model.pt", packed.getvalue())
    assert stage.text("summary").startswith("Don't load the refused files"), stage.text("summary")
    counts = "1 refused, 1 accepted, 1 no pickle."
    assert stage.text("caution") == counts, stage.text("caution")
    assert "refused, zip member: no at" in stage.text("line"), stage.text("line")
    with tarfile.open(fileobj=other, mode="w") as tar:
        info = tarfile.TarInfo("inner.pickle.gz")
        info.size = len(gzip.compress(HOSTILE, mtime=0))
        tar.addfile(info, io.BytesIO(gzip.compress(HOSTILE, mtime=0)))
    stage.choose("inner.tar", other.getvalue())
    assert "inner.pickle.gz › unpacked" in stage.text("path"), stage.text("path")
    assert "ImportOffList" in stage.text("line")
    for name, data, words in (
        ("packed.bz2", bz2.compress(honest()), "can't unpack bzip2"),
        ("cut.gz", gzip.compress(honest() * 50, mtime=0)[:-9], "broken"),
        ("cut.zip", packed.getvalue().replace(b"data.pkl", b"data.pkx", 1), "differs from"),
        ("behind.zip", packed.getvalue() + b"more", "readers may differ"),
        ("front.zip", b"N." + packed.getvalue(), "differ"),
    ):
        stage.choose(name, data)
        told = stage.text("summary") + stage.browser.run(
            "[...document.querySelectorAll('#parts button')].map((it) => (it.click(),"
            " document.getElementById('line').innerText)).join(' ')"
        )
        assert words in told and "Don't load" in told, (name, told)


def between_arrays(stage: Stage) -> None:
    """A command behind an array of joblib's, beside a file without it."""
    wrapper = b"cjoblib.numpy_pickle\nNumpyArrayWrapper\n)\x81}(\x8c\x08subclasscnumpy\nndarray\n"
    wrapper += b"\x8c\x05shapeK\x02\x85\x8c\x05order\x8c\x01C\x8c\x05dtypecnumpy\ndtype\n"
    wrapper += b"\x8c\x02u1\x89\x88\x87R(K\x03\x8c\x01|NNNK\x01K\x01K\0tb"
    wrapper += b"\x8c\nallow_mmap\x88ub\xff\xff"
    files = {"honest": b"\x80\x04]" + wrapper + b"a.", "hostile": b"\x80\x04]" + wrapper + b"a"}
    files["hostile"] += HOSTILE[:-1] + b"0."
    found = {}
    for name, data in files.items():
        stage.open()
        stage.choose(f"{name}.joblib", data)
        found[name] = stage.text("line"), stage.text("summary"), stage.text("imports")
    for name, word in (("honest", "unjudged"), ("hostile", "dangerous")):
        assert found[name][0].startswith(f"{word}, joblib: "), found
    assert found["hostile"][1].startswith("Don't load the dangerous files"), found
    assert "os.system" in found["hostile"][2] and "Harmless" not in str(found), found


def rows(stage: Stage) -> None:
    """Pickles behind one another, and bytes behind them."""
    stage.open(LIST)
    stage.choose("row.pickle", honest() + HOSTILE)
    assert stage.text("caution") == "1 refused, 1 accepted.", stage.text("caution")
    assert f"pickle 2, from byte {len(honest())}" in stage.text("path"), stage.text("path")


def hostile_names(stage: Stage) -> None:
    """Names that would run in a page, or turn its lines around."""
    stage.open(LIST)
    control = json.dumps(MARKUP)
    assert stage.browser.run(
        f"(() => {{ const it = document.createElement('p'); it.innerHTML = {control};"
        " return it.children.length })()"
    ), "the control: as HTML it is an element"
    module = f"{MARKUP}\u202e\u200b".encode()
    data = b"\x80\x04\x8c%c%s\x8c\x01f\x93." % (len(module), module)
    stage.drop(MARKUP + "\u202e.pickle", data)
    stage.listed()
    assert stage.browser.run("document.querySelectorAll('main img').length") == 0
    assert stage.browser.run("document.title").startswith("Storklocker")
    shown = stage.text("imports") + stage.text("path") + stage.text("words")
    assert MARKUP in shown and "\\u{202e}" in shown and "\u202e" not in shown, shown


def no_requests(stage: Stage) -> None:
    """Nothing leaves the page, even if a script in it tried."""
    stage.open(LIST)
    stage.drop("hostile.pickle", HOSTILE)
    asked = {it.partition(":")[0] for it in stage.browser.requests}
    assert asked <= {"file", "blob", "about"}, asked
    tried = "fetch('https://example.org/').then(() => 'sent', () => 'refused')"
    assert stage.browser.run(tried) == "refused"
    assert "Content Security Policy" in " ".join(stage.browser.errors), stage.browser.errors


def long_listing(stage: Stage) -> None:
    """A million lines, of which a few are in the page."""
    stage.open(LIST)
    stage.choose("long.pickle", b"N0" * (LINES // 2) + b"N.")
    stage.browser.wait("document.getElementById('listed-lines').innerText.includes('lines')")
    assert stage.text("listed-lines") == f"{LINES + 3:,} lines.", stage.text("listed-lines")
    stage.browser.run("document.getElementById('listing').focus()")
    stage.browser.press("End")
    assert stage.browser.run("document.querySelectorAll('#listing li').length") < 100
    last = stage.browser.run("[...document.querySelectorAll('#listing li')].at(-1).textContent")
    assert last == "highest protocol: 0", last
    stage.browser.press("Home")
    first = stage.browser.run("document.querySelector('#listing li').textContent")
    assert first == "    0: 4e NONE", first


def usable_meanwhile(stage: Stage) -> None:
    """The page answers while a large file is checked."""
    stage.open(LIST)
    path = stage.folder / "large.pickle"
    path.write_bytes(b"N0" * 10_000_000 + b"N.")
    stage.browser.run(
        "globalThis.gap = 0; let last = performance.now(); setInterval(() => {"
        "const now = performance.now(); gap = Math.max(gap, now - last); last = now }, 10); 0"
    )
    stage.browser.choose([path])
    stage.answered()
    assert "yes: 20000002 bytes" in stage.text("line"), stage.text("line")
    assert stage.browser.run("gap") < 1000, stage.browser.run("gap")


def windows(stage: Stage) -> None:
    """Wide and narrow, light and dark."""
    stage.open(LIST)
    stage.drop("hostile.pickle", HOSTILE)
    stage.listed()
    backs = []
    for scheme in ("light", "dark"):
        for size in (WIDE, NARROW):
            stage.browser.size(*size, scheme)
            width = stage.browser.run("document.scrollingElement.scrollWidth")
            assert width <= size[0], (width, size)
            stage.picture(f"page-{scheme}-{size[0]}")
        backs.append(stage.browser.run("getComputedStyle(document.body).backgroundColor"))
    assert backs[0] != backs[1], backs


def named(stage: Stage) -> None:
    """Each control has a name for those who don't see it, and is reached by the keyboard."""
    stage.open(LIST)
    stage.drop("hostile.pickle", HOSTILE)
    nodes = stage.browser.call("Accessibility.getFullAXTree")["nodes"]
    controls = ("button", "textbox", "searchbox", "combobox")
    unnamed = [it for it in nodes if _role(it) in controls and not _name(it)]
    assert not unnamed, unnamed
    focused = stage.browser.run("document.activeElement.id")
    assert focused == "summary", focused
    reached = set()
    for _ in range(20):
        stage.browser.press("Tab")
        reached.add(stage.browser.run("document.activeElement.id"))
    assert {"files", "filter", "listing", "list", "shipped"} <= reached, reached


def _role(node: Dict[str, Any]) -> str:
    return str(node.get("role", {}).get("value", ""))


def _name(node: Dict[str, Any]) -> str:
    return str(node.get("name", {}).get("value", ""))


ALL: Dict[str, Callable[[Stage], None]] = {
    it.__name__: it
    for it in (
        hostile_file, honest_file, filtered, containers, between_arrays, rows, hostile_names,
        no_requests, long_listing, usable_meanwhile, windows, named,
    )
}

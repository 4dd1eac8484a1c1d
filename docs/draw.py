#!/usr/bin/env python3
"""Draws the pictures of the documents: crates.svg from crates.txt, pickle.svg, and scan.svg, which
shows what a terminal shows. The last needs the Python package.

tests/documents.py compares them with what this draws.
"""

import os
import pty
import re
import subprocess
import sys
import tempfile
import zipfile
from pathlib import Path
from typing import Dict, Iterator, List, Mapping, NamedTuple, Sequence, Set, Tuple, Union
from xml.sax import saxutils

DOCS = Path(__file__).resolve().parent
STYLE = """text { font: 13px sans-serif; fill: #333 }
.title { font-weight: bold }
.small { font-size: 11px; fill: #555 }
.ported { font-size: 11px; font-style: italic; fill: #777 }
rect { fill: #f4f6f8; stroke: #9aa5b1 }
.proved { fill: #e3f1ea; stroke: #2a7f62 }
path { stroke: #667; fill: none; marker-end: url(#tip) }"""
TIP = """<marker id="tip" viewBox="0 0 8 8" refX="8" refY="4" markerWidth="7" markerHeight="7"
 orient="auto"><polygon points="0,0 8,4 0,8" fill="#667"/></marker>"""
WIDE, TALL, GAP, DOWN = 172, 88, 24, 132
# Where an arrow passes a row, between its boxes.
LANE = 10
PURPOSES = {
    "pkops": ["one instruction, its bytes,", "and the reasons"],
    "pkread": ["instructions and frames", "from any source"],
    "pkbase": ["containers"],
    "pkstack": ["the stack of marks", "and items"],
    "pklist": ["list files, and arrays", "of pairs"],
    "pkimport": ["imports and their texts"],
    "pkmachine": ["what holds in every run"],
    "pkcheck": ["the check: yes or no"],
    "pkopt": ["the optimizer"],
    "pkload": ["what loading costs"],
    "pkguard": ["the library for C"],
    "pkjson": ["plain data as JSON"],
    "pkargs": ["the command line"],
    "pkprint": ["answers as lines"],
    "pkpage": ["dis in memory,", "for the page"],
    "pktool": ["the program: the only", "crate that touches files"],
    "pkrows": ["tests across crates,", "by tables of rows"],
}
TERMINAL = "text { font: 13px monospace; fill: #ddd; white-space: pre }"
BACKGROUND = "fill: #1d2329; stroke: none"
# The codes by which `scan` sets colours, and how a terminal shows them.
COLOURS = {"1;31": "fill: #ff6b68; font-weight: bold"}
ANSWERS = ["yes: the bytes taken, the imports in order", "no: the offset, the reason, the pair"]


class Box(NamedTuple):
    left: int
    top: int
    title: str
    lines: Sequence[str] = ()
    is_proved: bool = True
    width: int = WIDE

    @property
    def height(self) -> int:
        return 28 + 15 * len(self.lines)

    @property
    def middle(self) -> int:
        return self.left + self.width // 2

    def drawn(self) -> Iterator[str]:
        kind = ' class="proved"' if self.is_proved else ""
        size = f'width="{self.width}" height="{self.height}"'
        yield f'<rect{kind} x="{self.left}" y="{self.top}" {size} rx="5"/>'
        yield text(self.left + 9, self.top + 19, self.title, "title")
        for number, line in enumerate(self.lines, 1):
            kind = "ported" if line.startswith("+ ") else "small"
            yield text(self.left + 9, self.top + 20 + 15 * number, line, kind)


def text(left: int, top: int, words: str, kind: str = "small") -> str:
    return f'<text class="{kind}" x="{left}" y="{top}">{saxutils.escape(words)}</text>'


def arrow(*places: Tuple[int, int]) -> str:
    return f'<path d="M{" L".join(f"{left},{top}" for left, top in places)}"/>'


def picture(
    title: str,
    width: int,
    height: int,
    parts: Sequence[str],
    style: str = STYLE,
    background: str = "fill: white; stroke: none",
) -> str:
    lines = [
        f'<svg xmlns="http://www.w3.org/2000/svg" role="img" width="{width}" height="{height}">',
        f"<title>{title}</title>",
        f"<style>{style}</style>",
        f"<defs>{TIP}</defs>" if style == STYLE else "",
        f'<rect width="{width}" height="{height}" style="{background}"/>',
    ]
    return "\n".join([*filter(None, lines), *parts, "</svg>", ""])


def uses() -> Dict[str, List[str]]:
    """What each crate uses, by crates.txt."""
    lines = (DOCS.parent / "crates.txt").read_text(encoding="utf-8").splitlines()
    rows = (line.partition(":") for line in lines if not line.startswith("#"))
    return {name.split()[0]: used.split() for name, _, used in rows}


def reached(crates: Dict[str, List[str]], name: str) -> Set[str]:
    """The crates below a crate, not itself."""
    own = [it for it in crates[name] if it in crates]
    return {below for it in own for below in (it, *reached(crates, it))}


def nearest(crates: Dict[str, List[str]], name: str) -> List[str]:
    """The crates that a crate uses, without those that one of them uses too."""
    below = reached(crates, name)
    return sorted(below - {far for it in below for far in reached(crates, it)})


class Lane(NamedTuple):
    """Where the arrow between two crates passes the row of a level."""

    level: int
    upper: str
    lower: str


Slot = Union[str, Lane]


def slots_of(crates: Dict[str, List[str]]) -> List[List[Slot]]:
    """The rows, the lowest first: the crates, each above those that it uses, and the lanes."""
    levels: Dict[str, int] = {}
    for name in sorted(crates, key=lambda it: len(reached(crates, it))):
        levels[name] = 1 + max((levels[it] for it in reached(crates, name)), default=-1)
    rows: List[List[Slot]] = [[] for _ in range(max(levels.values()) + 1)]
    for name, level in levels.items():
        rows[level].append(name)
    for name, level in levels.items():
        for other in nearest(crates, name):
            for between in range(levels[other] + 1, level):
                rows[between].append(Lane(between, name, other))
    return rows


def neighbours(crates: Dict[str, List[str]], rows: List[List[Slot]]) -> Dict[Slot, List[Slot]]:
    """What each slot is joined to in the row below it."""
    joined: Dict[Slot, List[Slot]] = {}
    for row in rows:
        for slot in row:
            if isinstance(slot, Lane):
                below = Lane(slot.level - 1, slot.upper, slot.lower)
                joined[slot] = [below if below in rows[slot.level - 1] else slot.lower]
            else:
                level = rows.index(row)
                lanes = [Lane(level - 1, slot, other) for other in nearest(crates, slot)]
                joined[slot] = [
                    lane if level and lane in rows[level - 1] else lane.lower for lane in lanes
                ]
    return joined


def middles_of(rows: List[List[Slot]], width: int) -> Dict[Slot, int]:
    """The middle of each slot, its row in the middle of the picture."""
    middles: Dict[Slot, int] = {}
    for row in rows:
        sizes = [WIDE if isinstance(slot, str) else LANE for slot in row]
        left = (width - sum(sizes) - GAP * (len(row) - 1)) // 2
        for slot, size in zip(row, sizes):
            middles[slot] = left + size // 2
            left += size + GAP
    return middles


def width_of(row: List[Slot]) -> int:
    return sum((WIDE if isinstance(slot, str) else LANE) + GAP for slot in row)


def sorted_rows(
    rows: List[List[Slot]], joined: Dict[Slot, List[Slot]], width: int
) -> Dict[Slot, int]:
    """The middles, after each row was sorted by what it is joined to, above and below."""
    above: Dict[Slot, List[Slot]] = {}
    for slot, others in joined.items():
        for other in others:
            above.setdefault(other, []).append(slot)
    middles = middles_of(rows, width)
    for turn in range(8):
        ties = above if turn % 2 else joined
        for row in rows[::-1] if turn % 2 else rows:

            def centre(slot: Slot, ties: Dict[Slot, List[Slot]] = ties) -> float:
                near = ties.get(slot, [])
                return sum(middles[it] for it in near) / len(near) if near else middles[slot]

            row.sort(key=centre)
            middles = middles_of(rows, width)
    return middles


def crates_picture() -> str:
    """The crates, each above those that it uses; an arrow leads to the ones nearest to it, beside
    the boxes of the rows that it passes.
    """
    crates = uses()
    rows = slots_of(crates)
    joined = neighbours(crates, rows)
    width = max(map(width_of, rows)) + 20
    middles = sorted_rows(rows, joined, width)
    tops = {slot: 14 + DOWN * (len(rows) - 1 - at) for at, row in enumerate(rows) for slot in row}
    parts: List[str] = []
    for name in crates:
        ported = [it for it in crates[name] if it not in crates and it != "staticlib"]
        lines = PURPOSES[name] + [f"+ {' '.join(it)}" for it in (ported[:2], ported[2:]) if it]
        box = Box(middles[name] - WIDE // 2, tops[name], name, lines)
        for slot in joined[name]:
            places = [(box.middle, box.top + box.height), (box.middle, box.top + TALL)]
            while isinstance(slot, Lane):
                places += [(middles[slot], tops[slot]), (middles[slot], tops[slot] + TALL)]
                slot = joined[slot][0]
            parts.append(arrow(*places, (middles[slot], tops[slot])))
        parts += box.drawn()
    parts.append(text(20, DOWN * len(rows) - 14, "All are proved. In italics: ported libraries."))
    title = "The crates, each above those that it uses"
    return picture(title, width, DOWN * len(rows), parts)


def pickle_picture() -> str:
    """The way of the bytes of a pickle to an answer."""
    boxes = [
        Box(14, 30, "Source", ["a file, a pipe, bytes", "at_hand, pull, pass"], width=150),
        Box(204, 30, "Reader", ["layout, contents, limits", "lend, next_head"], width=150),
        Box(394, 30, "Frames", ["counts the bytes of", "the open frame"], width=150),
        Box(584, 30, "Machine", ["what is known of stack", "and memo in every run"], width=150),
        Box(204, 128, "The answer", ANSWERS, width=340),
        Box(584, 128, "Policy", ["the listed pairs, or any"], width=150),
        Box(14, 226, "pktool", ["check, dis, imports,", "optimize, json"], width=150),
        Box(204, 226, "libstorklocker", ["a status for C,", "a verdict for Python"], width=150),
        Box(394, 226, "Guard", ["pickle.loads, of one", "immutable copy"], False, 150),
        Box(584, 226, "scan, adapters", ["files and services", "that hold pickles"], False, 150),
    ]
    arrows = [
        arrow((164, 60), (204, 60)),
        arrow((354, 60), (394, 60)),
        arrow((544, 60), (584, 60)),
        arrow((659, 128), (659, 88)),
        arrow((279, 88), (279, 128)),
        arrow((469, 88), (469, 128)),
        arrow((610, 88), (610, 106), (520, 106), (520, 128)),
        arrow((204, 158), (89, 158), (89, 226)),
        arrow((279, 186), (279, 226)),
        arrow((354, 256), (394, 256)),
        arrow((584, 256), (544, 256)),
    ]
    labels = [text(14, 20, "Green: proved. Each instruction is judged before the next is read.")]
    drawn = [line for box in boxes for line in box.drawn()]
    return picture("A pickle on its way through the checker", 750, 298, labels + arrows + drawn)


def shown(words: Sequence[str], folder: Path, environment: Mapping[str, str]) -> str:
    """What a command writes to a terminal."""
    here, there = pty.openpty()
    started = subprocess.Popen(words, cwd=folder, env=environment, stdout=there, stderr=there)
    os.close(there)
    output = b""
    try:
        while True:
            part = os.read(here, 1 << 16)
            if not part:
                break
            output += part
    except OSError:  # so Linux ends what a closed terminal gives
        pass
    finally:
        os.close(here)
        started.wait()
    return output.decode().replace("\r\n", "\n")


def terminal_picture(environment: Mapping[str, str]) -> str:
    """A scan of a hostile model on a terminal."""
    python = environment.get("PYTHON", sys.executable)
    path = [os.path.abspath(it) for it in environment.get("PYTHONPATH", "").split(os.pathsep) if it]
    named = {**environment, "TERM": "xterm", "NO_COLOR": "", "PYTHONPATH": os.pathsep.join(path)}
    with tempfile.TemporaryDirectory() as folder:
        models = Path(folder, "models")
        models.mkdir()
        with zipfile.ZipFile(models / "model.pt", "w") as model:
            model.writestr("model/data.pkl", b"cos\nsystem\n(Vecho gone\ntR.")
        words = [python, "-m", "storklocker", "scan", "models"]
        lines = ["$ storklocker scan models", *shown(words, Path(folder), named).splitlines()]
    drawn = [
        f'<text x="14" y="{26 + 18 * number}">{painted(line)}</text>'
        for number, line in enumerate(lines)
    ]
    wide = 28 + 8 * max(len(re.sub("\x1b\\[[0-9;]*m", "", line)) for line in lines)
    title = "A scan of a hostile model, on a terminal"
    return picture(title, wide, 22 + 18 * len(lines), drawn, TERMINAL, BACKGROUND)


def painted(line: str) -> str:
    """A line with the codes of its colours turned into styles."""
    pieces = re.split("\x1b\\[([0-9;]*)m", line)
    drawn = [saxutils.escape(pieces[0])]
    for code, words in zip(pieces[1::2], pieces[2::2]):
        written = saxutils.escape(words)
        style = COLOURS.get(code)
        drawn.append(f'<tspan style="{style}">{written}</tspan>' if style else written)
    return "".join(drawn)


def pictures(environment: Mapping[str, str], has_package: bool = True) -> Dict[Path, str]:
    """The files, and what is in them."""
    drawn = {DOCS / "crates.svg": crates_picture(), DOCS / "pickle.svg": pickle_picture()}
    if has_package:
        drawn[DOCS / "scan.svg"] = terminal_picture(environment)
    return drawn


if __name__ == "__main__":
    for file, drawing in pictures(os.environ).items():
        file.write_text(drawing, encoding="utf-8")

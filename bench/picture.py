"""Draws the processor time of `pktool check` beside `pickle.loads`, as SVG.

Each shape has a pair of bars. The figures are ratios of one run: `pickle.loads` is always 1.
"""
import typing
from xml.sax import saxutils

LEFT, WIDTH, BAR, SHAPE, TOP = 190, 400, 14, 44, 40

STYLE = """text { font: 13px sans-serif; fill: #333 }
.check { fill: #2a7f62 }
.loads { fill: #c9ced6 }"""
BACKGROUND = '<rect width="100%" height="100%" fill="white"/>'


def bar(top: int, kind: str, ratio: float) -> typing.Iterator[str]:
    """A bar as long as a ratio, with its number behind it."""
    length = round(WIDTH * ratio)
    yield f'<rect class="{kind}" x="{LEFT}" y="{top}" width="{length}" height="{BAR}"/>'
    yield f'<text x="{LEFT + length + 6}" y="{top + BAR - 2}">{ratio:.2f}</text>'


def drawing(ratios: typing.Mapping[str, float]) -> str:
    """The picture of the ratio of each shape."""
    height = TOP + SHAPE * len(ratios)
    title = "Processor time: pktool check (green) beside pickle.loads (grey, 1.00)"
    lines = [
        '<svg xmlns="http://www.w3.org/2000/svg" role="img"',
        f'     width="{LEFT + WIDTH + 60}" height="{height}">',
        f"<title>{title}</title>",
        f"<style>{STYLE}</style>",
        BACKGROUND,
        f'<text x="12" y="22">{title}</text>',
    ]
    for place, (name, ratio) in enumerate(ratios.items()):
        top = TOP + SHAPE * place
        lines.append(f'<text x="12" y="{top + BAR + 4}">{saxutils.escape(name)}</text>')
        lines += bar(top, "check", ratio)
        lines += bar(top + BAR + 2, "loads", 1)
    return "\n".join([*lines, "</svg>", ""])

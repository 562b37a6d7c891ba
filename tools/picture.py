#!/usr/bin/env python3
"""Makes docs/trust.svg, the picture of how a machine is attested: from its PCRs, log and list to a verdict.

tools/picture.py > docs/trust.svg. The same script always makes the same bytes; tests/pages/quotes.py compares them with the file."""

from typing import NamedTuple
from xml.sax.saxutils import escape

WIDTH, HEIGHT = 900, 600
LINE = 18  # between two lines of text

# How far each part is relied upon: its words, its fill, and its border.
KINDS = {
    "proved": ("proved: every function meets its contract", "#d9f0dd", 'stroke="#1b6e2d" stroke-width="3"'),
    "trusted": ("trusted: nothing here checks it", "#f3efe4", 'stroke="#7a6a3a" stroke-width="1.5" stroke-dasharray="7 4"'),
    "result": ("", "#ffffff", 'stroke="#222222" stroke-width="1.5"'),
}


class Box(NamedTuple):
    left: int
    top: int
    width: int
    height: int
    kind: str
    title: str
    lines: tuple


BOXES = (
    Box(50, 70, 330, 150, "trusted", "TPM", ("extends PCRs: new = hash(old, digest)", "signs them and the nonce: a quote")),
    Box(50, 260, 330, 80, "trusted", "Firmware", ("measures what it starts, before it starts it,", "and logs each event")),
    Box(50, 370, 330, 80, "trusted", "Linux with IMA", ("measures the files that its policy names,", "and lists each entry")),
    Box(540, 70, 320, 60, "trusted", "Key and nonce", ("kept here; a new nonce for each answer",)),
    Box(540, 170, 320, 280, "proved", "ima-agent attest", (
        "the key signed the quote;", "a TPM made the quote, for the nonce;", "log and list are read exactly, or refused;", "neither extends the other's PCRs;",
        "template digests are valid;", "replayed, they give the quoted PCRs,", "each required one among them;", "the boot aggregate is good",
    )),
    Box(540, 510, 150, 60, "result", "verdict match", ("status 0",)),
    Box(710, 510, 150, 60, "result", "no match", ("any other status",)),
)

# Points from tail to head, the label, and the place of its middle.
ARROWS = (
    (((540, 100), (380, 100)), "nonce", (460, 92)),
    (((380, 200), (540, 200)), "signed quote", (460, 192)),
    (((380, 310), (540, 310)), "firmware.log", (460, 302)),
    (((380, 410), (540, 410)), "ima.list", (460, 402)),
    (((120, 260), (120, 220)), "extends", (158, 246)),
    (((50, 410), (32, 410), (32, 180), (50, 180)), "extends", (78, 358)),
    (((640, 130), (640, 170)), "", (0, 0)),
    (((615, 450), (615, 510)), "all hold", (650, 485)),
    (((760, 450), (760, 510)), "otherwise", (802, 485)),
)

PANELS = ((20, 400, "The machine"), (510, 375, "The verifier"))


def text(x, y, words, style=""):
    return f'<text x="{x}" y="{y}"{style}>{escape(words)}</text>'


def panel(left, width, title):
    yield f'<rect x="{left}" y="16" width="{width}" height="{HEIGHT - 32}" rx="10" fill="#fafafa" stroke="#bbbbbb"/>'
    yield text(left + 16, 48, title, ' font-size="19" font-weight="bold"')


def box(each):
    _, fill, border = KINDS[each.kind]
    middle = each.left + each.width // 2
    first = each.top + (each.height - LINE * len(each.lines)) // 2 + 4
    yield f'<rect x="{each.left}" y="{each.top}" width="{each.width}" height="{each.height}" rx="6" fill="{fill}" {border}/>'
    yield text(middle, first, each.title, ' text-anchor="middle" font-weight="bold"')
    for number, words in enumerate(each.lines, 1):
        yield text(middle, first + number * LINE, words, ' text-anchor="middle" font-size="13"')


def arrow(points, label, place):
    corners = " ".join(f"{x},{y}" for x, y in points)
    yield f'<polyline points="{corners}" fill="none" stroke="#222222" stroke-width="1.5" marker-end="url(#head)"/>'
    if label:
        yield text(*place, label, ' text-anchor="middle" font-size="13" font-style="italic"')


def legend():
    for number, (words, fill, border) in enumerate(each for each in KINDS.values() if each[0]):
        top = 486 + 30 * number
        yield f'<rect x="50" y="{top}" width="30" height="18" rx="3" fill="{fill}" {border}/>'
        yield text(92, top + 14, words, ' font-size="13"')


def picture():
    parts = [
        f'<svg xmlns="http://www.w3.org/2000/svg" viewBox="0 0 {WIDTH} {HEIGHT}" width="{WIDTH}" height="{HEIGHT}" role="img"'
        ' font-family="Helvetica, Arial, sans-serif" font-size="15" fill="#111111">',
        "<title>How a machine is attested</title>",
        '<defs><marker id="head" markerWidth="9" markerHeight="8" refX="8" refY="4" orient="auto"><path d="M0,0 L9,4 L0,8 z"/></marker></defs>',
        f'<rect width="{WIDTH}" height="{HEIGHT}" fill="#ffffff"/>',
    ]
    for each in PANELS:
        parts.extend(panel(*each))
    for each in BOXES:
        parts.extend(box(each))
    for each in ARROWS:
        parts.extend(arrow(*each))
    parts.extend(legend())
    parts.append("</svg>")
    return "\n".join(parts) + "\n"


if __name__ == "__main__":
    print(picture(), end="")

#!/usr/bin/env python3
"""Draws docs/layers.svg, the picture of the layers, from the sections of crates.txt.

A section begins with a comment line `# NAME: WHAT IT HAS`, and its crates
stand below it. `docs/layers.py` writes the picture; with `--check` it writes
nothing, and ends with status 1 where the picture is not that of crates.txt.
"""
import html
import os
import re
import sys
from typing import List, NamedTuple

HERE = os.path.dirname(os.path.abspath(__file__))
CRATES = os.path.join(HERE, "..", "crates.txt")
PICTURE = os.path.join(HERE, "layers.svg")

BESIDE = ("tests", "benchmarks")  # sections on which no layer stands
WIDTH, MARGIN = 960, 24
LABEL = 128  # the column with the name of a layer
CHIP_HEIGHT, CHIP_GAP, LETTER = 24, 8, 7.3  # LETTER: the width of one letter of a chip
GAP = 16  # between two layers
COLORS = ["#4c6a92", "#49798a", "#4a8578", "#5f8a5a", "#86864a", "#a07a45", "#a5684c", "#97566a"]
INK, PALE, PAPER = "#1f2933", "#52606d", "#ffffff"


class Section(NamedTuple):
    """A section of crates.txt."""

    name: str
    text: str
    crates: List[str]


def sections(lines: List[str]) -> List[Section]:
    """The sections of crates.txt, lowest first."""
    found: List[Section] = []
    for line in lines:
        head = re.fullmatch(r"# ([a-z]+): (.*)", line)
        if head:
            found.append(Section(head[1], head[2], []))
        elif found and re.match(r"[a-z0-9_]+( [^:]*)?:", line):
            found[-1].crates.append(re.split(r"[ :]", line, maxsplit=1)[0])
    return found


def chip_rows(crates: List[str], width: float) -> List[List[str]]:
    """The names of crates in rows that are no wider than this."""
    rows: List[List[str]] = [[]]
    used = 0.0
    for crate in crates:
        wide = len(crate) * LETTER + 16 + CHIP_GAP
        if rows[-1] and used + wide > width:
            rows.append([])
            used = 0.0
        rows[-1].append(crate)
        used += wide
    return rows


def box(section: Section, top: float, color: str) -> "tuple[List[str], float]":
    """A layer whose upper edge is at `top`, and its height."""
    inner = WIDTH - 2 * MARGIN - LABEL - 24
    rows = chip_rows(section.crates, inner)
    height = 40 + len(rows) * (CHIP_HEIGHT + CHIP_GAP) + 4
    left = MARGIN + LABEL + 12
    parts = [
        f'<rect x="{MARGIN}" y="{top:g}" width="{WIDTH - 2 * MARGIN}" height="{height:g}" rx="10" fill="{color}" fill-opacity="0.10"'
        f' stroke="{color}" stroke-opacity="0.55"/>',
        f'<path d="M{MARGIN + 10} {top:g} h{LABEL - 10} v{height:g} h-{LABEL - 10} a10 10 0 0 1 -10 -10 v-{height - 20:g} a10 10 0 0 1 10 -10 z"'
        f' fill="{color}"/>',
        f'<text x="{MARGIN + LABEL / 2:g}" y="{top + height / 2 + 6:g}" class="name">{html.escape(section.name)}</text>',
        f'<text x="{left}" y="{top + 25:g}" class="text">{html.escape(section.text)}</text>',
    ]
    y = top + 38
    for row in rows:
        x = float(left)
        for crate in row:
            wide = len(crate) * LETTER + 16
            parts.append(f'<rect x="{x:g}" y="{y:g}" width="{wide:g}" height="{CHIP_HEIGHT}" rx="5" fill="{PAPER}" stroke="{color}"/>')
            parts.append(f'<text x="{x + wide / 2:g}" y="{y + 16:g}" class="crate">{html.escape(crate)}</text>')
            x += wide + CHIP_GAP
        y += CHIP_HEIGHT + CHIP_GAP
    return parts, height


def arrow(x: float, top: float) -> str:
    """An arrow down, in the gap below a layer."""
    return f'<path d="M{x:g} {top + 1:g} v{GAP - 7} m-5 -3 l5 6 l5 -6" fill="none" stroke="{PALE}" stroke-width="1.6"/>'


def picture(found: List[Section]) -> str:
    """The picture, top layer first."""
    layers = [section for section in found if section.name not in BESIDE][::-1]
    parts: List[str] = []
    top = 52.0
    parts.append(f'<text x="{WIDTH / 2:g}" y="24" class="edge">requests of files and connections</text>')
    parts.append(f'<path d="M{WIDTH / 2:g} 31 v13 m-5 -4 l5 6 l5 -6" fill="none" stroke="{PALE}" stroke-width="1.6"/>')
    for number, section in enumerate(layers):
        drawn, height = box(section, top, COLORS[number % len(COLORS)])
        parts += drawn
        top += height
        if number + 1 < len(layers):
            parts.append(arrow(WIDTH / 2, top))
            top += GAP
    parts.append(f'<text x="{WIDTH / 2:g}" y="{top + 24:g}" class="edge">a layer uses the contracts of layers below it, and nothing else of them</text>')
    height = top + 38
    style = (
        "text{font-family:'DejaVu Sans',Verdana,Helvetica,Arial,sans-serif}"
        f".name{{fill:{PAPER};font-size:16px;font-weight:bold;text-anchor:middle}}"
        f".text{{fill:{INK};font-size:13px}}"
        f".crate{{fill:{INK};font-size:12px;text-anchor:middle;font-family:'DejaVu Sans Mono',Menlo,Consolas,monospace}}"
        f".edge{{fill:{PALE};font-size:13px;text-anchor:middle}}"
    )
    head = (
        f'<svg xmlns="http://www.w3.org/2000/svg" viewBox="0 0 {WIDTH} {height:g}" width="{WIDTH}" height="{height:g}" role="img">\n'
        f"<title>The layers of pijuld</title>\n<style>{style}</style>\n"
        f'<rect width="{WIDTH}" height="{height:g}" fill="{PAPER}"/>\n'
    )
    return head + "\n".join(parts) + "\n</svg>\n"


def main(words: List[str]) -> int:
    """Writes the picture, or compares it."""
    source = CRATES
    with open(source, encoding="utf-8") as file:
        drawn = picture(sections(file.read().splitlines()))
    if words == ["--check"]:
        with open(PICTURE, encoding="utf-8") as file:
            if file.read() == drawn:
                return 0
        print("docs/layers.svg is not the picture of crates.txt: run docs/layers.py", file=sys.stderr)
        return 1
    with open(PICTURE, "w", encoding="utf-8") as file:
        file.write(drawn)
    return 0


if __name__ == "__main__":
    sys.exit(main(sys.argv[1:]))

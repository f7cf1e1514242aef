"""The graph of a file, or of one of its conflicts, as a picture by Graphviz.

What `dot` writes is read again, and only shapes, letters and links are taken
over: colours are an affair of the style sheet, and nothing else can come in.
"""

from __future__ import annotations

import shutil
import subprocess
import xml.etree.ElementTree as tree
from typing import Callable, Dict, Iterator, List, NamedTuple, Optional, Sequence, Set, Tuple

from markupsafe import Markup, escape

from ..graph import ALIVE, DEAD, ZOMBIE
from ..layout import FileOrder
from ..marked import Marked
from ..text import short
from ..view import View
from .letters import cut, decode, plain

MOST = 250  # nodes that are drawn; a larger graph is nothing to look at
SECONDS = 10  # that `dot` may take
LETTERS, LINES = 32, 4  # of a text in a node
SHAPES = {ALIVE: "box", ZOMBIE: "octagon", DEAD: "ellipse"}
SPACE = "{http://www.w3.org/2000/svg}"
LINK = "{http://www.w3.org/1999/xlink}href"
SHAPE_WORDS = {
    "polygon": ("points",),
    "polyline": ("points",),
    "path": ("d",),
    "ellipse": ("cx", "cy", "rx", "ry"),
    "text": ("x", "y", "text-anchor"),
    "g": ("class", "transform"),
    "a": (),
}


class Node(NamedTuple):
    """Vertices of one change and one status that follow each other."""

    vertices: List[int]
    change: str
    status: str
    data: bytes


class Drawing(NamedTuple):
    """The nodes of a graph, its edges, and the picture, or why there is none."""

    nodes: List[Node]
    edges: List[Tuple[int, int]]
    svg: Optional[Markup]
    why: str


def draw(
    view: View, marked: Marked, link: Callable[[str], str], chosen: Optional[Set[int]] = None
) -> Drawing:
    """The graph of a file; or of the `chosen` vertices, with those next to them."""
    order = marked.order
    pairs = _pairs(view, marked, order)
    if chosen is not None:
        pairs = {(a, b) for a, b in pairs if a in chosen or b in chosen}
        chosen = chosen | {k for pair in pairs for k in pair}
    wanted = sorted(range(len(order.vertices)) if chosen is None else chosen)
    nodes, edges = _joined(view, order, wanted, pairs)
    if not nodes:
        return Drawing([], [], None, "There is no text yet.")
    if len(nodes) > MOST:
        return Drawing(nodes[:MOST], [], None, f"It has {len(nodes):,} nodes, too many to draw.")
    svg = _picture(_spell(view, nodes, edges, link))
    return Drawing(nodes, edges, svg, "" if svg else "Graphviz (dot) is not installed, or failed.")


def _pairs(view: View, marked: Marked, order: FileOrder) -> Set[Tuple[int, int]]:
    enters = {vertex.first: k for k, vertex in enumerate(order.vertices)}
    leaves = {vertex.last: k for k, vertex in enumerate(order.vertices)}
    return {(leaves[source], enters[target]) for source, target in view.graph.pairs(marked.inode)}


def _joined(
    view: View, order: FileOrder, wanted: Sequence[int], pairs: Set[Tuple[int, int]]
) -> Tuple[List[Node], List[Tuple[int, int]]]:
    """Vertices that only follow each other are one node, if one change made them."""
    after: Dict[int, List[int]] = {k: [] for k in wanted}
    before: Dict[int, List[int]] = {k: [] for k in wanted}
    for a, b in sorted(pairs):
        after[a].append(b)
        before[b].append(a)

    def follows(a: int, b: int) -> bool:
        alone = after[a] == [b] and before[b] == [a]
        one = order.vertices[a].change == order.vertices[b].change
        return alone and one and order.status[a] == order.status[b]

    node_of: Dict[int, int] = {}
    nodes: List[Node] = []
    heads = [k for k in wanted if not any(a != k and follows(a, k) for a in before[k])]
    for k in [*heads, *wanted]:  # those that no head leads to are in a cycle
        if k in node_of:
            continue
        row = [k]
        while after[row[-1]] and follows(row[-1], after[row[-1]][0]):
            if after[row[-1]][0] in row:
                break
            row.append(after[row[-1]][0])
        node_of.update(dict.fromkeys(row, len(nodes)))
        data = b"".join(view.graph.data(order.vertices[v]) for v in row)
        nodes.append(Node(row, order.vertices[k].change, order.status[k], data))
    inner = {pair for node in nodes for pair in zip(node.vertices, node.vertices[1:])}
    edges = {(node_of[a], node_of[b]) for a, b in pairs - inner}
    return nodes, sorted(edges)


def excerpt(data: bytes) -> List[str]:
    """The first lines of a text, each cut."""
    rows = decode(data[: LINES * 400]).split("\n")
    if rows[-1] == "":
        rows.pop()
    shown = []
    for row in rows[:LINES]:
        text, rest = cut(row, LETTERS)
        shown.append(plain(text.replace("\t", "    ")) + ("…" if rest else ""))
    return [*shown, "…"] if len(rows) > LINES or len(data) > LINES * 400 else shown


def _quoted(text: str) -> str:
    """A text as a label of `dot`, which reads `\\` and entities in it."""
    return text.replace("&", "&amp;").replace("\\", "\\\\").replace('"', '\\"')


def _spell(
    view: View, nodes: Sequence[Node], edges: Sequence[Tuple[int, int]], link: Callable[[str], str]
) -> bytes:
    rows = [
        "digraph file {",
        ' rankdir=TB; ranksep=0.35; nodesep=0.3; bgcolor="transparent";',
        ' node [fontname="DejaVu Sans Mono", fontsize=11, margin="0.14,0.07"];',
        " edge [arrowsize=0.7];",
    ]
    for number, node in enumerate(nodes):
        who = decode(view.graph.changes[node.change].author.partition(b" <")[0])
        head = f"{plain(cut(who, 24)[0])} {short(node.change)}"
        lines = [head, *(excerpt(node.data) or [" "])]
        label = "".join(_quoted(line) + "\\l" for line in lines)
        rows.append(
            f' n{number} [label="{label}", shape={SHAPES[node.status]}, class="{node.status}",'
            f' URL="{_quoted(link(node.change))}"];'
        )
    rows += [f" n{a} -> n{b};" for a, b in edges]
    return ("\n".join([*rows, "}"]) + "\n").encode("utf-8", "replace")


def has_dot() -> bool:
    """Whether Graphviz is installed."""
    return shutil.which("dot") is not None


def _picture(dot: bytes) -> Optional[Markup]:
    if not has_dot():
        return None
    try:
        done = subprocess.run(
            ["dot", "-Tsvg"], input=dot, stdout=subprocess.PIPE, stderr=subprocess.DEVNULL,
            check=True, timeout=SECONDS,
        )
        top = tree.fromstring(done.stdout)
    except (OSError, subprocess.SubprocessError, tree.ParseError):
        return None
    view = top.get("viewBox", "0 0 1 1")
    width = round(float(view.split()[2]) * 4 / 3)
    inner = Markup("").join(Markup(part) for child in top for part in _shapes(child))
    return Markup('<svg class="graph" viewBox="{}" width="{}" role="group">{}</svg>').format(
        view, width, inner
    )


def _shapes(element: tree.Element) -> Iterator[str]:
    """An element of the picture with what is in it, if it is a shape, letters or a link."""
    tag = str(element.tag).replace(SPACE, "")
    if tag not in SHAPE_WORDS:
        return
    words = {word: element.get(word) for word in SHAPE_WORDS[tag]}
    if tag == "a":
        words["href"] = element.get(LINK)
    spelled = "".join(f' {word}="{escape(value)}"' for word, value in words.items() if value)
    yield f"<{tag}{spelled}>{escape(element.text or '') if tag == 'text' else ''}"
    for child in element:
        if not (element.get("class") == "graph" and child.tag == SPACE + "polygon"):  # its ground
            yield from _shapes(child)
    yield f"</{tag}>"

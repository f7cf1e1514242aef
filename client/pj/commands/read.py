"""Commands that read the channel in other forms: credit, archive, graph."""

from __future__ import annotations

import io
import os
import sys
import tarfile
from argparse import Namespace
from typing import Dict, List

from ..graph import ALIVE, DEAD, Graph
from ..layout import FileOrder
from ..lines import split
from ..marked import Marked, Piece
from ..paths import spoken
from ..say import Stop, line, note, raw
from ..text import Change, Point, short
from ..tree import Entry
from ..workspace import Workspace
from .look import date


def _file_at(workspace: Workspace, word: str) -> Entry:
    path = workspace.path_of(word)
    entry = workspace.shown.entry_at(path)
    if entry is None:
        raise Stop(
            f"the channel has nothing at {workspace.relative(path)}", "pj ls lists its paths"
        )
    if entry.kind != "file":
        raise Stop(f"{workspace.relative(path)} is a folder", "name one of the files in it")
    return entry


def run_credit(workspace: Workspace, given: Namespace) -> int:
    """Writes each line of a file with the change that wrote it, the latest where it was several."""
    entry = _file_at(workspace, given.path)
    marked = workspace.shown.marked(entry.inode)
    changes = workspace.shown.graph.changes
    rank = {name: place for place, name in enumerate(workspace.folder.shown)}
    names = line_owners(marked, rank)
    width = max((len(changes[name].by) for name in names if name), default=0)
    width = min(width, 24)
    for name, text in zip(names, split(marked.text)):
        who = _who(changes[name], width) if name else " " * (31 + width)
        raw(who.encode("utf-8", "replace") + b"| " + text.rstrip(b"\n") + b"\n")
    return 0


def _who(change: Change, width: int) -> str:
    return f"{short(change.name)} {date(change)} {change.by[:width]:<{width}} "


def line_owners(marked: Marked, rank: Dict[str, int]) -> List[str]:
    """The latest change that has a byte in each line; empty for a marker line."""
    found: List[str] = []
    owner, open_line = "", False
    for block in marked.blocks:
        for token in block.tokens:
            name = ""
            if isinstance(token, Piece):
                name = marked.order.vertices[token.vertex].change
            for text in split(token.data):
                if name and (not owner or rank.get(name, -1) > rank.get(owner, -1)):
                    owner = name
                open_line = not text.endswith(b"\n")
                if not open_line:
                    found.append(owner)
                    owner = ""
    return [*found, owner] if open_line else found


def run_archive(workspace: Workspace, given: Namespace) -> int:
    """Writes a tar of the print of the set that is shown."""
    body = archive(workspace)
    if given.output is None or given.output == "-":
        if sys.stdout.isatty():
            raise Stop("a tar is nothing for a terminal", "pj archive -o FILE", status=2)
        raw(body)
    else:
        with open(given.output, "wb") as file:
            file.write(body)
    return 0


def archive(workspace: Workspace) -> bytes:
    """The print as a tar: the same bytes for the same set, whoever makes it."""
    latest = max((change.time for change in workspace.shown.graph.changes.values()), default=0)
    out = io.BytesIO()
    with tarfile.open(fileobj=out, mode="w", format=tarfile.PAX_FORMAT) as tar:
        for path, node in sorted(workspace.shown.folder.items()):
            row = tarfile.TarInfo(os.fsdecode(path))
            row.mtime = latest
            if node.kind == "dir":
                row.type, row.mode = tarfile.DIRTYPE, 0o755
                tar.addfile(row)
            else:
                row.mode, row.size = 0o755 if node.executable else 0o644, len(node.data)
                tar.addfile(row, io.BytesIO(node.data))
    return out.getvalue()


def run_graph(workspace: Workspace, given: Namespace) -> int:
    """Writes the vertices of a file with their statuses, or its graph for Graphviz."""
    entry = _file_at(workspace, given.path)
    graph = workspace.shown.graph
    if given.dot:
        raw(_dot(graph, entry.inode))
        return 0
    order = FileOrder(graph, entry.inode)
    for vertex, status in zip(order.vertices, order.status):
        text = _excerpt(graph.data(vertex))
        line(f"{status:<6} {short(vertex.change)}.{vertex.start}-{vertex.end}  {text}")
    if not order.vertices:
        note(f"{spoken(entry.path)} has no text yet")
    return 0


def _excerpt(data: bytes, most: int = 40) -> str:
    text = data[:most].decode("utf-8", "replace")
    shown = text.encode("unicode_escape").decode()
    return shown if len(data) <= most else shown + ".."


def _dot(graph: Graph, inode: Point) -> bytes:
    """The graph of a file: an edge for each pair of vertices that follow each other."""
    order = FileOrder(graph, inode)
    enters = {vertex.first: number for number, vertex in enumerate(order.vertices)}
    leaves = {vertex.last: number for number, vertex in enumerate(order.vertices)}
    colour = {ALIVE: "black", DEAD: "gray", "zombie": "red"}
    rows = ["digraph file {", "  rankdir=TB; node [shape=box, fontname=monospace];"]
    for number, (vertex, status) in enumerate(zip(order.vertices, order.status)):
        text = _excerpt(graph.data(vertex), 24).replace("\\", "\\\\").replace('"', '\\"')
        label = f"{short(vertex.change)}.{vertex.start}\\n{text}"
        style = ", style=dashed" if status == DEAD else ""
        rows.append(f'  v{number} [label="{label}", color={colour[status]}{style}];')
    pairs = {(leaves[source], enters[target]) for source, target in graph.pairs(inode)}
    rows += [f"  v{source} -> v{target};" for source, target in sorted(pairs)]
    return ("\n".join([*rows, "}"]) + "\n").encode()

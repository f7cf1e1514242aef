"""All pages of a channel as files for any web server."""

from __future__ import annotations

import os
from typing import Iterator, List

from ..say import Progress, Stop
from .app import make_app
from .links import Links
from .pages import PAGE, Site
from .shelf import Held
from .source import Source


def export(source: Source, channel: str, folder: str) -> int:
    """Writes the pages of a channel into a folder that is new or empty; how many."""
    if os.path.exists(folder) and (not os.path.isdir(folder) or os.listdir(folder)):
        raise Stop(f"{folder} is there, and not empty", "give a new folder")
    site = Site(source, only=channel)
    client = make_app(site).test_client()
    paths = list(_paths(site, site.shelf.channel(channel)))
    progress = Progress("pages written", len(paths))
    for count, path in enumerate(paths):
        response = client.get("/" + path)
        if response.status_code != 200:
            raise Stop(f"the page {path} could not be made: status {response.status_code}")
        _write(os.path.join(folder, path), response.data)
        progress(count)
    progress.end()
    return len(paths)


def _write(full: str, data: bytes) -> None:
    if full.endswith("/"):
        full += "index.html"
    os.makedirs(os.path.dirname(full), exist_ok=True)
    with open(full, "wb") as file:
        file.write(data)


def _paths(site: Site, held: Held) -> Iterator[str]:
    """The paths of all pages, each once."""
    to = Links("/")
    links: List[str] = [to.home, to.style, to.files(held.name)]
    for page in range(1, _count(len(held.names)) + 1):
        links.append(to.changes(held.name, page))
    for page in range(1, _count(len(held.conflicts)) + 1):
        links.append(to.conflicts(held.name, page))
    for name in held.names:
        links += [to.change(held.name, name), to.text(held.name, name)]
    for entry in site.names(held).entries.values():
        if entry.kind != "file":
            continue
        text = site.text_of(held, entry, 1)
        parts = text.parts if text is not None else 1
        links += [to.file(held.name, entry.inode, part) for part in range(1, parts + 1)]
        links.append(to.raw(held.name, entry.inode))
        if text is not None:
            links.append(to.graph(held.name, entry.inode))
            links += [to.graph(held.name, entry.inode, place.id) for place in text.found]
    for link in links:
        yield link[2:]  # without the `./` of the first page


def _count(rows: int) -> int:
    return max(1, -(-rows // PAGE))

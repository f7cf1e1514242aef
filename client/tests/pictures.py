#!/usr/bin/env python3
"""Takes pictures of the pages of `pj web`, for eyes: eight pages at two widths.

    pictures.py FOLDER [--docs]

They are written into FOLDER as PNG; with `--docs` only the three that docs/ has.
The pages are those of the history of `kitchen.py`, light, and two of them dark.
"""

from __future__ import annotations

import os
import shutil
import sys
import tempfile
from typing import Dict, List, Tuple
from urllib.parse import urljoin

from browser import LACKING, NARROW, WHY, WIDE, Browser, Pages
from kitchen import Kitchen
from support import Server

DARK = ("graph", "resolve")
DOCS = {"file": 800, "compare": 860, "resolve": 900}  # and how much of each, in pixels


def addresses(browser: Browser, pages: Pages) -> Dict[str, str]:
    """The eight pages."""
    found = {"channels": pages.address}
    for name, path in (
        ("changes", "channel/main/"), ("files", "channel/main/files/"),
        ("conflicts", "channel/main/conflicts/"), ("compare", "compare/bea/cyril/"),
    ):
        found[name] = urljoin(pages.address, path)
    browser.go(found["files"])
    found["file"] = browser.link("pasta.py").get_attribute("href")
    found["graph"] = found["file"] + "graph/"
    browser.go(urljoin(pages.address, "channel/cyril/"))
    found["change"] = browser.all("article h2 a")[1].get_attribute("href")
    browser.go(pages.edit)
    found["resolve"] = browser.all(".button")[-1].get_attribute("href")
    return found


def take(browser: Browser, pages: Pages, folder: str, docs: bool) -> List[Tuple[str, int]]:
    """Writes the pictures: their names and sizes in bytes."""
    done = []
    for name, address in addresses(browser, pages).items():
        if docs and name not in DOCS:
            continue
        browser.dark(name in DARK and not docs)
        for width in (WIDE,) if docs else (WIDE, NARROW):
            browser.size(width)
            browser.go(address)
            path = os.path.join(folder, f"web-{name}.png" if docs else f"{name}-{width}.png")
            browser.picture(path, DOCS.get(name) if docs else None)
            done.append((path, os.path.getsize(path)))
    return done


def main(words: List[str]) -> int:
    """Takes the pictures."""
    if len(words) not in (1, 2) or words[1:] not in ([], ["--docs"]):
        print(__doc__, file=sys.stderr)
        return 2
    if LACKING:
        print(WHY, file=sys.stderr)
        return 1
    os.makedirs(words[0], exist_ok=True)
    place, server = tempfile.mkdtemp(prefix="pj-test-"), Server()
    pages, browser = None, None
    try:
        pages = Pages(Kitchen(server, place).ann, "--edit")
        browser = Browser()
        for path, size in take(browser, pages, words[0], len(words) == 2):
            print(f"{size:>8,} {path}")
    finally:
        for one in (browser, pages, server):
            if one is not None:
                one.end()
        shutil.rmtree(place, ignore_errors=True)
    return 0


if __name__ == "__main__":
    sys.exit(main(sys.argv[1:]))

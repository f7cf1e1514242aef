#!/usr/bin/env python3
"""How long pages of `pj web` take for a repository of 10,000 changes of 1,000 files.

    large_web.py [CHANGES [FILES]]

`PIJULD` names the program that serves it, or it is the built one. Each change but
the first inserts a line at a drawn place of a drawn file, so that many are in
conflict. It prints for each page the seconds and the seconds of processor time of
the pages' own process. It is no test: nothing is judged.
"""

from __future__ import annotations

import os
import sys
import tempfile
import time
from random import Random
from typing import List, Tuple

from support import Server
from pj.text import ROOT, About, Change, Hunk, Insert, Make, spell

LINES = [b"line %d of a file that people work on\n" % number for number in range(20)]
Texts = List[Tuple[str, bytes]]  # the changes with their names


def change(number: int, hunks: List[Hunk], needs: List[str]) -> Tuple[str, bytes]:
    """A change with its name."""
    about = About(b"change %d" % number, b"ann", 1_700_000_000 + number)
    text = spell(about, "own", needs, [], hunks)
    return Change(text).name, text


def drawn(changes: int, files: int) -> Texts:
    """The repository; the same each time."""
    hunks: List[Hunk] = []
    inodes, text = [], b"".join(LINES)
    for number in range(files):
        at = number * (2 + len(text)) + 1
        inodes.append(at)
        hunks += [
            Make("file", ROOT, b"file-%04d.txt" % number),
            Insert(("own", at), (("own", at),), (), text),
        ]
    found, draw = [change(0, hunks, [])], Random(1)
    first = found[0][0]
    ends = [k for k, byte in enumerate(text) if byte == 10]
    for number in range(1, changes):
        inode = inodes[draw.randrange(files)]
        up = inode + 1 + draw.choice(ends[:-1])
        line = b"one more line, the %d-th\n" % number
        hunk = Insert((first, inode), ((first, up),), ((first, up + 1),), line)
        found.append(change(number, [hunk], [first]))
    return found


def main(words: List[str]) -> int:
    """Fills a server, and reads the pages twice."""
    changes, files = (list(map(int, words)) + [10_000, 1_000][len(words):])[:2]
    os.environ["XDG_CACHE_HOME"] = tempfile.mkdtemp(prefix="pj-test-")
    from pj.web.app import make_app
    from pj.web.pages import Site
    from pj.web.source import find

    server = Server()
    session = server.session()
    *texts, last = drawn(changes + 1, files)
    session.put_and_apply("main", texts)
    client = make_app(Site(find(server.address))).test_client()

    def read(path: str, what: str) -> None:
        began, worked = time.monotonic(), time.process_time()
        reply = client.get(path)
        assert reply.status_code == 200, reply.status
        began, worked = time.monotonic() - began, time.process_time() - worked
        print(f"{what:<34} {began:7.2f} s {worked:7.2f} s of the processor", flush=True)

    read("/", "the front page, the first time")
    for path in ("", "channel/main/", "channel/main/files/", "channel/main/conflicts/"):
        for _ in range(2):
            read("/" + path, path or "the front page")
    session.put_and_apply("main", [last])
    read("/", "the front page, one more change")
    session.close()
    server.end()
    return 0


if __name__ == "__main__":
    sys.exit(main(sys.argv[1:]))

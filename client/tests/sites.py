"""What the tests of `pj web` share: a repository in memory, and its pages as a reader sees them."""

from __future__ import annotations

import atexit
import tempfile
from html.parser import HTMLParser
from importlib.util import find_spec
from typing import Dict, List, Optional, Sequence, Tuple
from urllib.parse import urljoin

import support  # noqa: F401  (finds the package)
from pj.text import About, Change, Hunk, spell
from pj.wire import Refused

LACKING = [name for name in ("flask", "jinja2", "pygments") if find_spec(name) is None]
PLACE = tempfile.TemporaryDirectory(prefix="pj-test-")
atexit.register(PLACE.cleanup)
WHY = f"these packages are not installed: {', '.join(LACKING)} (tests/setup installs them)"


class Repository:
    """Channels in memory, and what was asked of them."""

    def __init__(self, channels: Dict[str, Sequence[Change]]):
        self.held = {name: list(changes) for name, changes in channels.items()}
        self.asked: List[Tuple[str, ...]] = []

    def channels(self) -> Dict[str, int]:
        self.asked.append(("channels",))
        return {name: len(changes) for name, changes in self.held.items()}

    def log(self, channel: str) -> List[str]:
        self.asked.append(("log", channel))
        if channel not in self.held:
            raise Refused(["log", channel], ["channel"])
        return [change.name for change in self.held[channel]]

    def get(self, names: Sequence[str]) -> List[Change]:
        self.asked += [("get", name) for name in names]
        there = {change.name: change for changes in self.held.values() for change in changes}
        return [there[name] for name in names]

    def close(self) -> None:
        self.asked.append(("close",))


def change(
    hunks: Sequence[Hunk],
    needs: Sequence[str] = (),
    message: bytes = b"m",
    author: bytes = b"ann",
    time: int = 7,
) -> Change:
    """A change with these hunks; in them `own` stands for the change itself."""
    return Change(spell(About(message, author, time), "own", needs, (), hunks))


class Node:
    """An element of a page."""

    def __init__(self, tag: str, words: Dict[str, Optional[str]]):
        self.tag, self.words = tag, words
        self.parts: "List[Node | str]" = []

    @property
    def classes(self) -> List[str]:
        return (self.words.get("class") or "").split()

    @property
    def text(self) -> str:
        """What a reader sees, with single spaces."""
        return " ".join("".join(self._letters()).split())

    @property
    def letters(self) -> str:
        """The same as it stands."""
        return "".join(self._letters())

    def _letters(self) -> List[str]:
        return [part if isinstance(part, str) else part.letters for part in self.parts]

    def all(self, word: str) -> "List[Node]":
        """The elements within it that have this tag, or this class behind a dot."""
        found = []
        for part in self.parts:
            if isinstance(part, Node):
                if part.tag == word or word[:1] == "." and word[1:] in part.classes:
                    found.append(part)
                found += part.all(word)
        return found

    def one(self, word: str) -> "Node":
        (found,) = self.all(word)
        return found


class _Reader(HTMLParser):
    VOID = ("meta", "link", "input", "br")

    def __init__(self) -> None:
        super().__init__(convert_charrefs=True)
        self.top = Node("page", {})
        self.open = [self.top]

    def handle_starttag(self, tag: str, attrs: List[Tuple[str, Optional[str]]]) -> None:
        node = Node(tag, dict(attrs))
        self.open[-1].parts.append(node)
        if tag not in self.VOID:
            self.open.append(node)

    def handle_startendtag(self, tag: str, attrs: List[Tuple[str, Optional[str]]]) -> None:
        self.open[-1].parts.append(Node(tag, dict(attrs)))

    def handle_endtag(self, tag: str) -> None:
        assert self.open[-1].tag == tag, f"<{self.open[-1].tag}> is closed by </{tag}>"
        self.open.pop()

    def handle_data(self, data: str) -> None:
        self.open[-1].parts.append(data)


def read(page: str) -> Node:
    """A page; each of its elements has to be closed."""
    reader = _Reader()
    reader.feed(page)
    reader.close()
    assert reader.open == [reader.top], [node.tag for node in reader.open]
    return reader.top


class Reader:
    """Somebody who reads the pages of a repository."""

    def __init__(self, repository: Repository, only: str = ""):
        from pj.web.app import make_app
        from pj.web.cache import TextCache
        from pj.web.pages import Site
        from pj.web.source import Source

        self.repository = repository
        self.place = tempfile.mkdtemp(dir=PLACE.name)
        source = Source("test", lambda: repository, TextCache(self.place))  # type: ignore
        self.site = Site(source, only)
        self.app = make_app(self.site)
        self.client = self.app.test_client()

    def get(self, path: str, status: int = 200) -> Node:
        """The page at a path."""
        response = self.client.get(path)
        assert response.status_code == status, (path, response.status_code, response.text)
        return read(response.text)

    def everything(self, start: str = "/") -> Dict[str, Node]:
        """All pages that links lead to from one."""
        found: Dict[str, Node] = {}
        todo = [start]
        while todo:
            path = todo.pop()
            if path in found:
                continue
            response = self.client.get(path)
            assert response.status_code == 200, (path, response.status_code)
            if response.mimetype != "text/html":
                found[path] = Node("bytes", {})
                continue
            found[path] = read(response.text)
            links = (node.words.get("href") or "" for node in found[path].all("a"))
            todo += [urljoin(path, link).partition("#")[0] for link in links]
        return found

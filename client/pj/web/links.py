"""The addresses of the pages, each relative to the page that has the link.

So the pages stand below any address, and as files of any web server. A page is
a folder of the site; an inode and a change are called by their whole names, which
nobody can choose. A channel may be called `.` or `..`, which would be no folder:
a `~` stands before such a name.
"""

from __future__ import annotations

from urllib.parse import urlencode

from ..text import Point


def spell_channel(name: str) -> str:
    """A channel in an address."""
    return "~" + name if name in (".", "..") else name


def read_channel(word: str) -> str:
    """The channel that an address names."""
    return word[1:] if word in ("~.", "~..") else word


def spell_inode(inode: Point) -> str:
    """An inode in an address."""
    return f"{inode[0]}.{inode[1]}"


class Links:
    """The links of the page at a path; `static` where the pages are files."""

    def __init__(self, path: str, static: bool = False):
        self.up = "../" * path.strip("/").count("/") + "../" if path.strip("/") else "./"
        self.static = static

    def _to(self, *parts: str) -> str:
        end = "index.html" if self.static else ""
        return self.up + "".join(part + "/" for part in parts) + end

    def _in(self, channel: str, *parts: str) -> str:
        return self._to("channel", spell_channel(channel), *parts)

    @property
    def style(self) -> str:
        """The style sheet."""
        return self.up + "style.css"

    @property
    def home(self) -> str:
        """The channels."""
        return self._to()

    def changes(self, channel: str, page: int = 1) -> str:
        """The changes of a channel."""
        return self._in(channel, *(("page", str(page)) if page > 1 else ()))

    def change(self, channel: str, name: str) -> str:
        """One change."""
        return self._in(channel, "change", name)

    def text(self, channel: str, name: str) -> str:
        """The text of a change, as it is stored."""
        return self.up + f"channel/{spell_channel(channel)}/change/{name}/text"

    def files(self, channel: str) -> str:
        """The files of a channel."""
        return self._in(channel, "files")

    def file(self, channel: str, inode: Point, part: int = 1) -> str:
        """A file, or a part of a long one."""
        more = ("part", str(part)) if part > 1 else ()
        return self._in(channel, "file", spell_inode(inode), *more)

    def raw(self, channel: str, inode: Point) -> str:
        """The bytes of a file."""
        return self.up + f"channel/{spell_channel(channel)}/file/{spell_inode(inode)}/raw"

    def graph(self, channel: str, inode: Point, conflict: int = 0) -> str:
        """The graph of a file, or of one of its conflicts."""
        one = (str(conflict),) if conflict else ()
        return self._in(channel, "file", spell_inode(inode), "graph", *one)

    def conflicts(self, channel: str, page: int = 1) -> str:
        """The conflicts of a channel."""
        return self._in(channel, "conflicts", *(("page", str(page)) if page > 1 else ()))

    def search(self, channel: str, query: str = "", page: int = 1) -> str:
        """The search in a channel."""
        words = {"q": query} if query else {}
        if page > 1:
            words["page"] = str(page)
        asked = urlencode(words, errors="surrogatepass")
        return self._in(channel, "search") + (f"?{asked}" if asked else "")

    def compare(self, one: str, other: str) -> str:
        """Two channels beside each other."""
        return self._to("compare", spell_channel(one), spell_channel(other))

    def choose(self, one: str = "") -> str:
        """The choice of two channels; the first one may be known."""
        return self._to("compare") + (f"?one={one}" if one else "")

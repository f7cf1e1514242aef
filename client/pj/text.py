"""The text of a change (docs/FORMATS.md): read, written and named.

A point is a pair: the name of a change, and a position in it. In the hunks of
this module all references are points, so that a hunk means the same in every
change; the numbers of the needs are an affair of the text alone.
"""

from __future__ import annotations

from bisect import bisect_right
from dataclasses import dataclass
from hashlib import sha256
from typing import Callable, Dict, List, Optional, Sequence, Tuple, Union

Point = Tuple[str, int]
ROOT: Point = ("", 0)  # the root directory; it compares below every other point

# What a text may have at most (docs/FORMATS.md).
NEEDS, KNOWS, HUNKS, REFERENCES = 256, 1024, 4096, 64
BYTES = {1: 1 << 20, 2: 16 << 20}
MESSAGE, NAME, TIME = 1000, 255, (1 << 32) - 1


class Malformed(ValueError):
    """The bytes are not the text of a change that this client can read."""


@dataclass(frozen=True)
class Make:
    """`file`, `file+x` or `dir`: a name in a directory, and behind it the new inode."""

    word: str
    parent: Point
    name: bytes


@dataclass(frozen=True)
class Name:
    """`name` or `name+x`: a further name of an inode."""

    word: str
    parent: Point
    child: Point
    name: bytes


@dataclass(frozen=True)
class Insert:
    """`insert`: bytes of a file, behind the ups and before the downs."""

    file: Point
    ups: Tuple[Point, ...]
    downs: Tuple[Point, ...]
    data: bytes
    word: str = "insert"


@dataclass(frozen=True)
class Order:
    """`order`: one byte of a file is before another one."""

    file: Point
    source: Point
    target: Point
    word: str = "order"


@dataclass(frozen=True)
class Range:
    """`delete` or `revive`: bytes of one block, or one name, and whose versions it overrules."""

    word: str
    owner: str
    start: int
    end: int
    by: Tuple[str, ...]


Hunk = Union[Make, Name, Insert, Order, Range]


def positions(hunk: Hunk) -> int:
    """How many positions a hunk takes."""
    if isinstance(hunk, Make):
        return 2
    if isinstance(hunk, Name):
        return 1
    return len(hunk.data) if isinstance(hunk, Insert) else 0


def owners(hunk: Hunk) -> List[str]:
    """The changes to whose positions or versions a hunk refers; "" stands for the root."""
    if isinstance(hunk, Make):
        return [hunk.parent[0]]
    if isinstance(hunk, Name):
        return [hunk.parent[0], hunk.child[0]]
    if isinstance(hunk, Insert):
        return [point[0] for point in (hunk.file, *hunk.ups, *hunk.downs)]
    if isinstance(hunk, Order):
        return [hunk.file[0], hunk.source[0], hunk.target[0]]
    return [hunk.owner, *hunk.by]


def with_owners(hunk: Hunk, owner: Callable[[str], str]) -> Hunk:
    """The same hunk with `owner` applied to the name of each change in it."""

    def there(point: Point) -> Point:
        return (owner(point[0]), point[1])

    if isinstance(hunk, Make):
        return Make(hunk.word, there(hunk.parent), hunk.name)
    if isinstance(hunk, Name):
        return Name(hunk.word, there(hunk.parent), there(hunk.child), hunk.name)
    if isinstance(hunk, Insert):
        ups, downs = tuple(map(there, hunk.ups)), tuple(map(there, hunk.downs))
        return Insert(there(hunk.file), ups, downs, hunk.data)
    if isinstance(hunk, Order):
        return Order(there(hunk.file), there(hunk.source), there(hunk.target))
    by = tuple(map(owner, hunk.by))
    return Range(hunk.word, owner(hunk.owner), hunk.start, hunk.end, by)


class Change:
    """A change as its text says it, with its name."""

    def __init__(self, text: bytes):
        """Reads a text; `Malformed` where it has no reading."""
        self.text = text
        self.name = sha256(text).hexdigest()
        try:
            self._read()
        except (ValueError, IndexError, UnicodeDecodeError) as fault:
            raise Malformed(f"change {short(self.name)} cannot be read: {fault}") from None

    def _read(self) -> None:
        lines = _Lines(self.text)
        self.version = int(lines.titled(b"pijul change "))
        if self.version not in BYTES:
            raise ValueError(f"its version is {self.version}")
        self.message = lines.titled(b"message ")
        self.author = lines.titled(b"author ")
        self.time = int(lines.titled(b"time "))
        self.needs = lines.names(b"needs ")
        self.knows = lines.names(b"knows ")
        self.listed = frozenset(self.needs) | frozenset(self.knows)
        self.hunks: List[Hunk] = []
        self.places = [0]  # the first position of each hunk, and the position after the last
        names = [self.name, *self.needs]
        while lines.peek() != b"end":
            hunk = _read_hunk(lines, names)
            self.hunks.append(hunk)
            self.places.append(self.places[-1] + positions(hunk))

    def hunk_at(self, offset: int) -> int:
        """The number of the hunk that has a position."""
        return bisect_right(self.places, offset) - 1

    def block_at(self, offset: int) -> int:
        """The first position of the hunk that has a position."""
        return self.places[self.hunk_at(offset)]

    def data(self, start: int, end: int) -> bytes:
        """The bytes from `start` up to and without `end`, which are positions of one block."""
        number = self.hunk_at(start)
        hunk, first = self.hunks[number], self.places[number]
        assert isinstance(hunk, Insert)
        return hunk.data[start - first : end - first]

    @property
    def title(self) -> str:
        """The message, for people."""
        return printable(self.message)

    @property
    def by(self) -> str:
        """The author, for people."""
        return printable(self.author)


def printable(text: bytes) -> str:
    """A text of somebody else's, with nothing in it that would disturb a terminal."""
    letters = text.decode(errors="replace")
    return "".join(letter if letter.isprintable() else "?" for letter in letters)


class _Lines:
    """A text that is read from its beginning, line by line."""

    def __init__(self, text: bytes):
        self.text, self.at = text, 0

    def peek(self) -> bytes:
        """The next line, without its newline; it is not taken."""
        return self.text[self.at : self.text.index(b"\n", self.at)]

    def next(self) -> bytes:
        """The next line, without its newline."""
        end = self.text.index(b"\n", self.at)
        line = self.text[self.at : end]
        self.at = end + 1
        return line

    def titled(self, title: bytes) -> bytes:
        """What stands behind the title in the next line."""
        line = self.next()
        if not line.startswith(title):
            raise ValueError(f"a line does not begin with {title.decode()!r}")
        return line[len(title) :]

    def names(self, title: bytes) -> Tuple[str, ...]:
        """The names of the next lines that begin with the title."""
        found = []
        while self.text.startswith(title, self.at):
            found.append(self.next()[len(title) :].decode("ascii"))
        return tuple(found)

    def take(self, count: int) -> bytes:
        """So many bytes, and the newline behind them."""
        data = self.text[self.at : self.at + count]
        self.at += count + 1
        return data


def _read_hunk(lines: _Lines, names: Sequence[str]) -> Hunk:
    line = lines.next()
    word, rest = line.split(b" ", 1)

    def point(text: bytes) -> Point:
        if text == b"root":
            return ROOT
        number, offset = text.split(b".")
        return (names[int(number)], int(offset))

    def points(text: bytes) -> Tuple[Point, ...]:
        return () if text == b"-" else tuple(point(part) for part in text.split(b","))

    if word in (b"file", b"file+x", b"dir"):
        parent, name = rest.split(b" ", 1)
        return Make(word.decode(), point(parent), _file_name(name))
    if word in (b"name", b"name+x"):
        parent, child, name = rest.split(b" ", 2)
        return Name(word.decode(), point(parent), point(child), _file_name(name))
    if word == b"insert":
        file, _, ups, _, downs, count = rest.split(b" ")
        return Insert(point(file), points(ups), points(downs), lines.take(int(count)))
    if word == b"order":
        file, source, target = rest.split(b" ")
        return Order(point(file), point(source), point(target))
    if word in (b"delete", b"revive"):
        where, _, by = rest.split(b" ")
        number, span = where.split(b".")
        start, end = span.split(b"-")
        overruled = tuple(names[int(part)] for part in by.split(b","))
        return Range(word.decode(), names[int(number)], int(start), int(end), overruled)
    raise ValueError(f"it has a hunk {word!r}")


def _file_name(name: bytes) -> bytes:
    """A name from outside becomes a path on the disk, so this rule is kept here too."""
    if not is_file_name(name):
        raise ValueError(f"it has a file name {name!r}")
    return name


def is_file_name(name: bytes) -> bool:
    """Whether a change can name a file or a directory so."""
    if not 1 <= len(name) <= NAME or name in (b".", b".."):
        return False
    return b"\0" not in name and b"\n" not in name and b"/" not in name


@dataclass(frozen=True)
class About:
    """What a change says of itself."""

    message: bytes
    author: bytes
    time: int


def spell(
    about: About, own: str, needs: Sequence[str], knows: Sequence[str], hunks: Sequence[Hunk]
) -> bytes:
    """The text of a change; in its hunks `own` stands for the change itself."""
    numbers: Dict[str, int] = {name: number for number, name in enumerate(sorted(needs), 1)}
    numbers[own] = 0

    def reference(point: Point) -> str:
        return "root" if point == ROOT else "%d.%d" % (numbers[point[0]], point[1])

    def references(points: Sequence[Point]) -> str:
        found = sorted((numbers[name], offset) for name, offset in set(points))
        return ",".join("%d.%d" % pair for pair in found) or "-"

    lines = [b"message " + about.message, b"author " + about.author, b"time %d" % about.time]
    lines += [b"needs " + name.encode() for name in sorted(needs)]
    lines += [b"knows " + name.encode() for name in sorted(knows)]
    for hunk in hunks:
        if isinstance(hunk, Make):
            lines.append(f"{hunk.word} {reference(hunk.parent)} ".encode() + hunk.name)
        elif isinstance(hunk, Name):
            head = f"{hunk.word} {reference(hunk.parent)} {reference(hunk.child)} "
            lines.append(head.encode() + hunk.name)
        elif isinstance(hunk, Insert):
            head = f"insert {reference(hunk.file)} after {references(hunk.ups)}"
            tail = f" before {references(hunk.downs)} {len(hunk.data)}"
            lines += [(head + tail).encode(), hunk.data]
        elif isinstance(hunk, Order):
            words = reference(hunk.file), reference(hunk.source), reference(hunk.target)
            lines.append(" ".join(("order", *words)).encode())
        else:
            by = ",".join(str(number) for number in sorted(numbers[name] for name in hunk.by))
            span = f"{numbers[hunk.owner]}.{hunk.start}-{hunk.end}"
            lines.append(f"{hunk.word} {span} by {by}".encode())
    body = b"".join(line + b"\n" for line in lines) + b"end\n"
    second = any(hunk.word in ("file+x", "name+x", "revive") for hunk in hunks)
    version = 2 if second or len(b"pijul change 1\n") + len(body) > BYTES[1] else 1
    return b"pijul change %d\n" % version + body


def room(hunk: Hunk) -> int:
    """At most so many bytes a hunk takes in a text, the lines of its needs and knows apart."""
    if isinstance(hunk, (Make, Name)):
        return 48 + len(hunk.name)
    if isinstance(hunk, Insert):
        return 64 + 16 * (len(hunk.ups) + len(hunk.downs)) + len(hunk.data)
    return 80 + (4 * len(hunk.by) if isinstance(hunk, Range) else 0)


def short(name: Optional[str]) -> str:
    """The prefix of a name by which people speak of a change."""
    return (name or "")[:12]

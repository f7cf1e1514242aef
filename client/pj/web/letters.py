"""Texts of others on a page: nothing in them is markup, and nothing in them is unseen.

A message, a name and a line of a file may hold any bytes. What has no glyph, or
moves the letters beside it, is shown as its number: `\\x1b` for a byte that is no
UTF-8 or a control, `U+202E` for a mark. What is too long is cut, and that is said.
"""

from __future__ import annotations

from itertools import groupby
from typing import Optional

from markupsafe import Markup, escape

LONGEST = 2000  # letters of a line that are shown
TITLE = 200  # letters of a message or an author in a list


def is_plain(letter: str) -> bool:
    """Whether a letter is shown as it is."""
    return letter == "\t" or letter.isprintable()


def spelled(letter: str) -> str:
    """The number of a letter that is not shown as it is."""
    code = ord(letter)
    if 0xDC80 <= code <= 0xDCFF:  # a byte that is no UTF-8, by `surrogateescape`
        return f"\\x{code - 0xDC00:02x}"
    return f"\\x{code:02x}" if code < 0x80 else f"U+{code:04X}"


def letters(text: str) -> Markup:
    """A text whose letters are all seen."""
    if text.isprintable():
        return escape(text)
    found = Markup()
    for plain, group in groupby(text, is_plain):
        if plain:
            found += escape("".join(group))
        else:
            for letter in group:
                found += Markup('<span class="odd">{}</span>').format(spelled(letter))
    return found


def decode(data: bytes) -> str:
    """Bytes as a text, of which those that are no UTF-8 are shown as numbers."""
    return data.decode("utf-8", "surrogateescape")


def cut(text: str, most: int) -> "tuple[str, int]":
    """The first letters of a text, and how many there are beyond them."""
    return text[:most], max(0, len(text) - most)


def more(count: int, what: str = "letter") -> Markup:
    """What is said of letters that are not shown."""
    if not count:
        return Markup()
    ending = "" if count == 1 else "s"
    return Markup(' <span class="more">and {:,} more {}{}</span>').format(count, what, ending)


def line(data: bytes) -> Markup:
    """A line of a file, without its newline."""
    shown, rest = cut(decode(data), LONGEST)
    return letters(shown) + more(rest)


def inline(data: bytes, most: Optional[int] = None) -> Markup:
    """A message, an author or a name within a line of other words, of which it moves none."""
    shown, rest = cut(decode(data), most or LONGEST)
    return Markup("<bdi>{}</bdi>").format(letters(shown)) + more(rest)


def title(data: bytes) -> Markup:
    """A message in a list."""
    return inline(data, TITLE) if data.strip() else Markup('<em>no message</em>')


def author(data: bytes) -> Markup:
    """The author of a change, without an address behind the name."""
    name = data.partition(b" <")[0].strip() or data
    return inline(name, 60) if data.strip() else Markup("<em>nobody</em>")


def plain(text: str) -> str:
    """A text whose letters are all seen, where there can be no markup: a title of a page."""
    return "".join(letter if is_plain(letter) else spelled(letter) for letter in text)

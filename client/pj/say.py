"""What a command says: lines for people, questions, and how far a long piece of work is."""

from __future__ import annotations

import sys
import time
from typing import Iterable, Optional

SOON = 1.0  # seconds after which work says how far it is
OFTEN = 5.0  # seconds between two such lines where no person watches


class Stop(Exception):
    """A command that cannot do what was asked; the message says why and what to do next."""

    def __init__(self, *lines: str, status: int = 1):
        super().__init__("\n".join(lines))
        self.status = status


def set_up() -> None:
    """Writes UTF-8, and lets names that are none pass through the streams as they are."""
    for stream in (sys.stdout, sys.stderr):
        stream.reconfigure(encoding="utf-8", errors="surrogateescape")  # type: ignore


def line(*lines: str) -> None:
    """Lines on standard output."""
    for text in lines:
        sys.stdout.write(text + "\n")


def note(*lines: str) -> None:
    """Lines on standard error."""
    sys.stdout.flush()
    for text in lines:
        sys.stderr.write(text + "\n")
    sys.stderr.flush()


def raw(data: bytes) -> None:
    """Bytes on standard output."""
    sys.stdout.flush()
    sys.stdout.buffer.write(data)
    sys.stdout.buffer.flush()


def ask(question: str) -> bool:
    """Asks a person; no where nobody can be asked."""
    if not sys.stdin.isatty():
        return False
    sys.stdout.write(question + " [y/N] ")
    sys.stdout.flush()
    return sys.stdin.readline().strip().lower() in ("y", "yes")


def many(count: int, thing: str) -> str:
    """A number of things: `1 change`, `2 changes`."""
    return f"{count:,} {thing}" + ("" if count == 1 else "s")


def listed(words: Iterable[str]) -> str:
    """`a`, `a and b`, or `a, b and c`."""
    row = list(words)
    return " and ".join([", ".join(row[:-1]), row[-1]] if len(row) > 1 else row)


def one_line(text: str, most: int = 72) -> str:
    """A text, cut where it is too long for a line."""
    return text if len(text) <= most else text[: most - 3] + "..."


class Progress:
    """Says on standard error how far a piece of work is, once it has taken a second."""

    def __init__(self, what: str, total: Optional[int] = None):
        self.what, self.total = what, total
        self.began = self.last = time.monotonic()
        self.watched = sys.stderr.isatty()
        self.shown = False

    def __call__(self, count: int) -> None:
        """So many are done."""
        now = time.monotonic()
        often = 0.2 if self.watched else OFTEN
        if now - self.began < SOON or (self.shown and now - self.last < often):
            return
        of = f" of {self.total:,}" if self.total is not None else ""
        text = f"{self.what}: {count:,}{of}"
        sys.stderr.write(f"\r\033[K{text}" if self.watched else text + "\n")
        sys.stderr.flush()
        self.last, self.shown = now, True

    def end(self) -> None:
        """Takes the line of the progress away."""
        if self.shown and self.watched:
            sys.stderr.write("\r\033[K")
            sys.stderr.flush()

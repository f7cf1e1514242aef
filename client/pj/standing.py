"""Which conflicts of a printed text still stand in the text that a person made of it."""

from __future__ import annotations

from collections import Counter
from typing import Dict, List, NamedTuple, Optional

from .lines import matches, split
from .marked import Mark, Marked, Piece


class HalfResolved(Exception):
    """Some lines of a conflict were left; `line` is the number of the first one, from 1."""

    def __init__(self, line: int, whole: bool = False):
        what = "a conflict is left as it was" if whole else "a marker line of a conflict is left"
        super().__init__(f"line {line}: {what}")
        self.line = line
        self.whole = whole


class Standing(NamedTuple):
    """A conflict that stands in the new text as it was printed."""

    block: int  # its number in the marked text
    start: int  # its first byte in the new text
    end: int


def standing(marked: Marked, new: bytes) -> List[Standing]:
    """The conflicts that stand in the new text, each in one piece with all its lines.

    A conflict is resolved where none of its marker lines is left; where some
    are, and not all with all between them, this is `HalfResolved`. Live text
    may hold lines that look like marker lines: a line counts as one only where
    the new text has more such lines than the live text has.
    """
    if marked.clean:
        return []
    old_lines, new_lines = split(marked.text), split(new)
    there: Dict[int, int] = {}  # the place in the new text of each line that is kept
    for a, b, count in matches(old_lines, new_lines):
        for k in range(count):
            there[a + k] = b + k
    starts = [0]
    for line in new_lines:
        starts.append(starts[-1] + len(line))
    spare = Counter(new_lines)
    spare.subtract(split(_live(marked)))
    found, at = [], 0
    for number, block in enumerate(marked.blocks):
        marks: List[int] = []
        for token in block.tokens:
            if isinstance(token, Mark):
                marks.append(marked.text.count(b"\n", 0, at) + token.broke)
            at += len(token.data)
        kept = [mark for mark in marks if mark in there and spare[old_lines[mark]] > 0]
        if kept:
            span = range(marks[0], marks[-1] + 1)
            first: Optional[int] = there.get(marks[0])
            if first is None or any(there.get(k) != first + k - marks[0] for k in span):
                raise HalfResolved(1 + there[min(kept)])
            found.append(Standing(number, starts[first], starts[there[marks[-1]] + 1]))
    return found


def _live(marked: Marked) -> bytes:
    """The live text, without marker lines."""
    tokens = (token for block in marked.blocks for token in block.tokens)
    return b"".join(token.data for token in tokens if isinstance(token, Piece))

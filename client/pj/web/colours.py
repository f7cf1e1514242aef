"""The colours of texts, by Pygments.

A text is coloured by the ending of its path alone, and only where the lexer is
in the list below and the text is small: a text of others is never guessed at.
Colours are classes of the style sheet; a page reads as well without them.
"""

from __future__ import annotations

from typing import Iterable, Iterator, List, Optional, Sequence, Tuple

from markupsafe import Markup
from pygments.lexer import Lexer
from pygments.lexers import get_lexer_by_name
from pygments.token import Token
from pygments.util import ClassNotFound

from .letters import LONGEST, cut, decode, letters, line, more

MOST = 400_000  # letters of a text that is coloured

LEXERS = {
    "c": "c h", "cpp": "cc cpp cxx hh hpp", "css": "css", "diff": "diff patch", "go": "go",
    "html": "html htm", "ini": "ini cfg conf", "java": "java", "javascript": "js mjs",
    "json": "json", "lean": "lean", "make": "mk makefile", "markdown": "md", "ocaml": "ml mli",
    "haskell": "hs", "python": "py", "ruby": "rb", "rust": "rs rt", "bash": "sh bash",
    "sql": "sql", "tex": "tex", "toml": "toml", "typescript": "ts", "xml": "xml svg",
    "yaml": "yaml yml",
}
BY_ENDING = {ending: name for name, endings in LEXERS.items() for ending in endings.split()}

CLASSES = (  # the first that holds a kind of token
    (Token.Comment, "c"),
    (Token.Keyword, "k"),
    (Token.Operator.Word, "k"),
    (Token.Literal.String, "s"),
    (Token.Literal.Number, "n"),
    (Token.Name.Function, "f"),
    (Token.Name.Class, "f"),
    (Token.Name.Tag, "k"),
    (Token.Name.Decorator, "f"),
    (Token.Generic.Heading, "k"),
    (Token.Generic.Subheading, "k"),
)
Part = Tuple[str, str]  # a class, and letters


def _lexer(path: bytes) -> Optional[Lexer]:
    name = decode(path.rpartition(b"/")[2]).lower()
    known = BY_ENDING.get(name.rpartition(".")[2])
    try:
        return get_lexer_by_name(known) if known else None
    except ClassNotFound:
        return None


def _class_of(kind: object) -> str:
    return next((name for held, name in CLASSES if kind in held), "")


def _parts(lexer: Lexer, text: str) -> Iterator[Part]:
    """The whole text in its order, whatever the lexer makes of it."""
    at = 0
    for start, kind, value in lexer.get_tokens_unprocessed(text):
        if start != at or text[start : start + len(value)] != value:
            break
        yield _class_of(kind), value
        at = start + len(value)
    if at < len(text):
        yield "", text[at:]


def _by_lines(parts: Iterable[Part]) -> List[List[Part]]:
    rows: List[List[Part]] = [[]]
    for name, text in parts:
        first, *rest = text.split("\n")
        rows[-1].append((name, first))
        rows += [[(name, row)] for row in rest]
    return rows


def _drawn(parts: Sequence[Part]) -> Markup:
    """The parts of a line, of which no more than `LONGEST` letters are shown."""
    found, left, rest = Markup(), LONGEST, 0
    for name, text in parts:
        shown, over = cut(text, left)
        left, rest = left - len(shown), rest + over
        if shown and name:
            found += Markup('<span class="{}">{}</span>').format(name, letters(shown))
        else:
            found += letters(shown)
    return found + more(rest)


def coloured(path: bytes, rows: Sequence[bytes]) -> List[Markup]:
    """The lines of a file of this path, given without their newlines."""
    lexer = _lexer(path)
    if lexer is None or sum(map(len, rows)) > MOST:
        return [line(row) for row in rows]
    drawn = _by_lines(_parts(lexer, "\n".join(map(decode, rows))))
    return [_drawn(parts) for parts in drawn[: len(rows)]]

"""The pages on which conflicts of a working folder are resolved.

All of them stand below a token that only the address has which `pj web` prints.
No page beside them leads there, so who reads a repository cannot change it, and
no other site can send a form to an address that it does not know.
"""

from __future__ import annotations

import hmac
import secrets
from typing import Any, Dict, List, NamedTuple, Optional, Sequence, Tuple, Union

from flask import Flask, redirect, request
from werkzeug.exceptions import HTTPException
from werkzeug.wrappers import Response

from ..cli import told
from ..conflicts import Conflict
from ..folder import WorkingFolder, digest
from ..say import Stop
from ..standing import HalfResolved
from ..text import MESSAGE, Point, short
from ..tree import Entry
from ..workspace import author_of
from . import colours, filetext
from .links import Links
from .pages import Nothing, Site
from .resolving import (
    LEAVE, ORDER, TAKE, TYPED, Choice, Open, Stale, Wish, Work, plain_lines, record,
)
from .settling import is_of_names
from .shelf import Held, Shelf

CONTEXT = 3  # lines shown before and behind a conflict
Reply = Union[str, Response, Tuple[str, int]]


class Row(NamedTuple):
    """A path of the folder with its conflicts."""

    path: bytes
    inode: Point
    here: bool  # whether some are resolved beside the text of the file
    named: bool  # whether some are settled by what becomes of the name
    rows: List[Conflict]


class Asked(NamedTuple):
    """A conflict as the form asks for it."""

    open: Open
    item: filetext.Conflict
    choice: Choice
    before: List[filetext.Line]
    behind: List[filetext.Line]


class Editor:
    """The conflicts of one working folder, on pages below a token."""

    def __init__(self, site: Site, root: bytes, author: Optional[str] = None):
        self.site, self.root = site, root
        self.token = secrets.token_urlsafe(24)
        self.shelf = Shelf(site.source)
        try:
            self.author = author_of(author)
        except Stop:
            self.author = ""  # the form asks

    @property
    def path(self) -> str:
        """Where the pages begin."""
        return f"/edit/{self.token}/"

    def knows(self, token: str) -> bool:
        """Whether a request has the token."""
        return hmac.compare_digest(token.encode(), self.token.encode())

    def guard(self, token: str) -> None:
        """Answers a request without the token as if nothing were there."""
        if not self.knows(token):
            raise Nothing("open the address that pj web printed")

    def shown(self) -> Tuple[WorkingFolder, Held]:
        """The folder, and the set that its files show."""
        folder = WorkingFolder(self.root)
        return folder, self.shelf.put(folder.config.channel, folder.shown)

    # The pages.

    def list(self, path: str, done: str) -> str:
        """The conflicts of the folder, by path."""
        folder, held = self.shown()
        rows: Dict[Tuple[bytes, Point], List[Conflict]] = {}
        for row in held.conflicts:
            rows.setdefault((row.path, row.inode), []).append(row)
        found = []
        for (at, inode), some in rows.items():
            kind = held.view.graph.inodes[inode]
            named = [is_of_names(row, kind) for row in some]
            found.append(Row(at, inode, not all(named), any(named), some))
        return self.render("edit.html", path, held, rows=found, done=done, folder=folder)

    def file(self, path: str, word: str, form: Dict[str, str], notice: str = "") -> str:
        """The conflicts of one file with what can be chosen."""
        folder, held = self.shown()
        work = self._work(held, word)
        try:
            asked = self._asked(held, work, form)
        except HalfResolved as half:
            raise Stop(str(half), "resolve it in an editor, or pj restore the file") from None
        zombie = any(row.kind == "name" for row in self._of(held, work.entry))
        drawn = self._drawn(work.entry, asked)
        return self.render(
            "edit_file.html", path, held, entry=work.entry, asked=asked, drawn=drawn,
            name=form.get("name", ""), base=digest(folder.shown), mark=work.mark, zombie=zombie,
            notice=notice,
        )

    def preview(self, path: str, word: str, form: Dict[str, str], notice: str = "") -> str:
        """The file as it would be, and what else is to be said of the change."""
        folder, held = self.shown()
        work = self._work(held, word)
        if (form.get("base"), form.get("mark")) != (digest(folder.shown), work.mark):
            raise Stale
        choices = read_choices(form, work.open())
        rows = plain_lines(work.segments(choices))
        drawn = colours.coloured(work.entry.path, [data for _, data, _ in rows])
        left = sum(kind == "left" for kind, _, _ in rows)
        lines = [(kind, text) for (kind, _, _), text in zip(rows, drawn)]
        kept = {key: value for key, value in form.items() if key not in ("do", "message", "author")}
        return self.render(
            "edit_preview.html", path, held, entry=work.entry, lines=lines, form=kept, left=left,
            name=form.get("name", ""), notice=notice, message=form.get("message", ""),
            author_word=form.get("author", self.author), most=MESSAGE,
        )

    def record(self, path: str, word: str, form: Dict[str, str]) -> Reply:
        """Writes and records the file; then the list of what is left."""
        _, held = self.shown()
        work = self._work(held, word)
        if not form.get("message", "").strip():
            return self.preview(path, word, form, "Say in a few words what the change does.")
        wish = Wish(
            work.entry.inode, form.get("base", ""), form.get("mark", ""),
            read_choices(form, work.open()), form.get("name", ""), form["message"],
            form.get("author", "") or self.author,
        )
        done = record(self.root, wish)
        names = ",".join(short(change.name) for change in done.changes)
        return redirect(f"../../?done={names}", 303)

    def render(self, template: str, path: str, held: Held, **words: Any) -> str:
        """A page of the folder, with the links below the token."""
        to = EditLinks(path, self.token)
        return self.site.render(template, path, held=held, edit=to, here="Edit", **words)

    def _work(self, held: Held, word: str) -> Work:
        return Work(self.root, held.view, self.site.entry_of(held, word))

    @staticmethod
    def _of(held: Held, entry: Entry) -> List[Conflict]:
        return [row for row in held.conflicts if row.inode == entry.inode]

    def _asked(self, held: Held, work: Work, form: Dict[str, str]) -> List[Asked]:
        items = filetext.read(work.marked, held.place)
        places = [k for k, item in enumerate(items) if isinstance(item, filetext.Conflict)]
        opened = work.open()
        choices = read_choices(form, opened)
        found = []
        last = 0  # the line that is shown last
        for one in opened:
            place = places[one.number]
            item = items[place]
            assert isinstance(item, filetext.Conflict)
            choice = choices.get(one.number) or Choice(order=list(range(1, len(one.sides) + 1)))
            if not choice.typed:
                choice.typed = one.typable or ""
            before = [line for line in _lines_before(items, place) if line.number > last]
            behind = _lines_before(items[::-1], len(items) - 1 - place)[::-1]
            last = behind[-1].number if behind else item.number
            found.append(Asked(one, item, choice, before, behind))
        return found

    @staticmethod
    def _drawn(entry: Entry, asked: Sequence[Asked]) -> Dict[int, Any]:
        rows: Dict[int, bytes] = {}
        for one in asked:
            for line in [*one.before, *filetext.lines([one.item]), *one.behind]:
                rows[line.number] = line.data
        numbers = sorted(rows)
        return dict(zip(numbers, colours.coloured(entry.path, [rows[k] for k in numbers])))


class EditLinks(Links):
    """The links below the token."""

    def __init__(self, path: str, token: str):
        super().__init__(path)
        self.token = token

    @property
    def list(self) -> str:
        """The conflicts of the folder."""
        return self._to("edit", self.token)

    def resolve(self, inode: Point) -> str:
        """The conflicts of one file."""
        return self._to("edit", self.token, "file", f"{inode[0]}.{inode[1]}")

    def settle(self, inode: Point) -> str:
        """The conflicts of the names of one file or directory."""
        return self._to("edit", self.token, "name", f"{inode[0]}.{inode[1]}")


def _lines_before(items: Sequence[filetext.Item], place: int) -> List[filetext.Line]:
    """Up to `CONTEXT` lines right before an item."""
    found: List[filetext.Line] = []
    for item in reversed(items[max(0, place - CONTEXT) : place]):
        if not isinstance(item, filetext.Line):
            break
        found.insert(0, item)
    return found


def read_choices(form: Dict[str, str], opened: Sequence[Open]) -> Dict[int, Choice]:
    """What a form has chosen of the conflicts that stand in the file."""
    found = {}
    for one in opened:
        how = form.get(f"how-{one.number}", LEAVE)
        takes = [f"{TAKE}{k}" for k in range(len(one.sides))]
        known = [LEAVE, ORDER, *takes] + ([TYPED] if one.typable is not None else [])
        order = [_number(form.get(f"place-{one.number}-{k}", "")) for k in range(len(one.sides))]
        typed = form.get(f"typed-{one.number}", "").replace("\r\n", "\n")  # as browsers send it
        if how in known and how != LEAVE:
            found[one.number] = Choice(how, order, typed)
    return found


def _number(word: str) -> int:
    return int(word) if word.isascii() and word.isdigit() and len(word) < 6 else 0


def add_editing(app: Flask, site: Site, editor: Editor) -> None:
    """The pages of an editor."""

    @app.get("/edit/<token>/")
    def edit_list(token: str) -> Reply:
        editor.guard(token)
        with site.lock:
            return editor.list(request.path, request.args.get("done", "")[:200])

    @app.get("/edit/<token>/file/<word>/")
    def edit_file(token: str, word: str) -> Reply:
        editor.guard(token)
        with site.lock:
            return editor.file(request.path, word, {})

    @app.post("/edit/<token>/file/<word>/")
    def edit_chosen(token: str, word: str) -> Reply:
        editor.guard(token)
        form = request.form.to_dict()
        with site.lock:
            try:
                if form.get("do") == "record":
                    return editor.record(request.path, word, form)
                if form.get("do") == "preview":
                    return editor.preview(request.path, word, form)
                return editor.file(request.path, word, form)
            except Stale:
                notice = "The folder is not as it was; look at its conflicts again."
                return editor.file(request.path, word, form, notice), 409

    @app.errorhandler(Exception)
    def not_done(fault: Exception) -> Reply:
        if isinstance(fault, HTTPException):
            return fault.get_response()
        if not request.path.startswith(editor.path):
            raise fault
        if isinstance(fault, Stop):
            said, status = str(fault), 409
        else:
            app.logger.error("%s", fault, exc_info=fault)
            said, status = told(fault), 500
        what = "It was not recorded."
        return site.render("fault.html", request.path, what=what, more=said), status

"""The pages on which conflicts of names are settled, below the token of an editor."""

from __future__ import annotations

from typing import Dict, Tuple

from flask import Flask, redirect, request

from .. import disk
from ..folder import WorkingFolder, digest
from ..say import Stop
from ..text import MESSAGE, short
from .editing import Editor, Reply
from .pages import Nothing, read_point
from .resolving import Stale
from .settling import MOVE, NameWish, Settling, settle
from .shelf import Held

STALE = "The folder is not as it was; look at it again."


class NameEditor:
    """The conflicts of the names of one file or directory."""

    def __init__(self, editor: Editor):
        self.editor = editor

    def _work(self, word: str) -> Tuple[WorkingFolder, Held, Settling]:
        folder, held = self.editor.shown()
        inode = read_point(word)
        if inode not in held.view.graph.inodes:
            raise Nothing(f"{held.name} has no such file or directory")
        return folder, held, Settling(folder, disk.scan(folder.root), held.view, inode)

    def choices(self, path: str, word: str, form: Dict[str, str], notice: str = "") -> str:
        """What can be chosen."""
        folder, held, work = self._work(word)
        rows = work.standing(held.conflicts)
        typed = form.get("target", work.entry.name.decode("utf-8", "replace"))
        return self.editor.render(
            "edit_name.html", path, held, entry=work.entry, rows=rows, MOVE=MOVE,
            options=work.options(held.conflicts), how=form.get("how", ""), target=typed,
            base=digest(folder.shown), notice=notice,
        )

    def preview(self, path: str, word: str, form: Dict[str, str], notice: str = "") -> str:
        """What would be done, and what else is to be said of the change."""
        folder, held, work = self._work(word)
        if form.get("base") != digest(folder.shown):
            raise Stale
        if form.get("how") not in {option.word for option in work.options(held.conflicts)}:
            return self.choices(path, word, form, "Choose what becomes of it.")
        try:
            done = work.deed(form["how"], form.get("target", ""))
        except Stop as stop:
            why = str(stop).replace("\n", "; ")
            return self.choices(path, word, form, f"That cannot be done: {why}")
        kept = {key: form.get(key, "") for key in ("base", "how", "target")}
        return self.editor.render(
            "edit_name_preview.html", path, held, entry=work.entry, said=done.said,
            form={**kept, "mark": done.mark}, notice=notice, message=form.get("message", ""),
            author_word=form.get("author", self.editor.author), most=MESSAGE,
        )

    def record(self, path: str, word: str, form: Dict[str, str]) -> Reply:
        """Does it and records it; then the list of what is left."""
        _, held, work = self._work(word)
        if form.get("how") not in {option.word for option in work.options(held.conflicts)}:
            raise Stale
        if not form.get("message", "").strip():
            return self.preview(path, word, form, "Say in a few words what the change does.")
        wish = NameWish(
            work.entry.inode, form.get("base", ""), form.get("mark", ""), form["how"],
            form.get("target", ""), form["message"], form.get("author", "") or self.editor.author,
        )
        done = settle(self.editor.root, wish)
        names = ",".join(short(change.name) for change in done.changes)
        return redirect(f"../../?done={names}", 303)


def add_naming(app: Flask, editor: Editor) -> None:
    """The pages of names of an editor."""
    pages, site = NameEditor(editor), editor.site

    @app.get("/edit/<token>/name/<word>/")
    def edit_name(token: str, word: str) -> Reply:
        editor.guard(token)
        with site.lock:
            return pages.choices(request.path, word, {})

    @app.post("/edit/<token>/name/<word>/")
    def edit_name_chosen(token: str, word: str) -> Reply:
        editor.guard(token)
        form = request.form.to_dict()
        with site.lock:
            try:
                if form.get("do") == "record":
                    return pages.record(request.path, word, form)
                if form.get("do") == "preview":
                    return pages.preview(request.path, word, form)
                return pages.choices(request.path, word, form)
            except Stale:
                return pages.choices(request.path, word, form, STALE), 409

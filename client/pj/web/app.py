"""The pages at their addresses, with the headers that keep them safe."""

from __future__ import annotations

import os
from typing import Callable, FrozenSet, Optional, Tuple, Union

from flask import Flask, Response, redirect, request
from werkzeug.wrappers import Response as BaseResponse

from ..text import short
from ..wire import Lost, Refused
from .links import read_channel
from .pages import Nothing, Site
from .source import NoChannel

# No script runs, nothing comes from elsewhere, and no other site shows these pages within its own.
POLICY = (
    "default-src 'none'; style-src 'self'; img-src 'self'; form-action 'self';"
    " base-uri 'none'; frame-ancestors 'none'"
)
HEADERS = {
    "Content-Security-Policy": POLICY,
    "X-Content-Type-Options": "nosniff",
    "Referrer-Policy": "no-referrer",
    "Cross-Origin-Resource-Policy": "same-origin",
    "Cache-Control": "no-cache",
}
LONGEST = 1000  # letters of a query
STYLE = os.path.join(os.path.dirname(os.path.abspath(__file__)), "style.css")


def make_app(site: Site) -> Flask:
    """The pages of a site.

    Where the config has `hosts`, no request for another host is answered: a
    name of somebody else's that leads to this machine shows nothing.
    """
    app = Flask(__name__, static_folder=None)

    @app.before_request
    def check_host() -> Optional[Tuple[str, int]]:
        hosts: Optional[FrozenSet[str]] = app.config.get("hosts")
        if hosts is not None and request.host not in hosts:
            return "these pages have another address\n", 421
        return None

    @app.after_request
    def add_headers(response: Response) -> Response:
        for name, value in HEADERS.items():
            response.headers.setdefault(name, value)
        return response

    _add_pages(app, site)
    _add_bytes(app, site)
    _add_faults(app, site)
    return app


def _add_pages(app: Flask, site: Site) -> None:
    def page(rule: str, make: Callable[..., str]) -> None:
        def view(**words: str) -> str:
            for word in ("channel", "other"):
                if word in words:
                    words[word] = read_channel(words[word])
            with site.lock:
                return make(request.path, **words)

        app.add_url_rule(rule, endpoint=rule, view_func=view, methods=["GET"])

    def changes(path: str, channel: str, page: int = 1) -> str:
        return site.changes(path, channel, page)

    page("/", site.home)
    page("/channel/<channel>/", changes)
    page("/channel/<channel>/page/<int:page>/", changes)
    page("/channel/<channel>/change/<word>/", site.change)
    page("/channel/<channel>/files/", site.files)
    page("/channel/<channel>/file/<word>/", site.file)
    page("/channel/<channel>/file/<word>/part/<int:part>/", site.file)
    page("/channel/<channel>/conflicts/", site.conflicts)
    page("/channel/<channel>/conflicts/page/<int:page>/", site.conflicts)
    page("/channel/<channel>/file/<word>/graph/", site.graph)
    page("/channel/<channel>/file/<word>/graph/<int:conflict>/", site.graph)
    if not site.only:
        page("/compare/<channel>/<other>/", site.compare)
        _add_questions(app, site)


def _add_questions(app: Flask, site: Site) -> None:
    """The pages that a form asks for."""

    @app.get("/compare/")
    def choose() -> Union[str, BaseResponse]:
        one, other = request.args.get("one", ""), request.args.get("other", "")
        with site.lock:
            if not (one and other):
                return site.choose(request.path, one, other)
            for channel in (one, other):
                if channel not in site.source.channels():
                    raise NoChannel(channel)
            return redirect(site.links(request.path).compare(one, other))

    @app.get("/channel/<channel>/search/")
    def search(channel: str) -> str:
        query = request.args.get("q", "")[:LONGEST]
        page = request.args.get("page", 1, type=int)
        with site.lock:
            return site.search(request.path, read_channel(channel), query, page)


def _add_bytes(app: Flask, site: Site) -> None:
    @app.get("/style.css")
    def style() -> Response:
        with open(STYLE, encoding="utf-8") as file:
            return Response(file.read(), mimetype="text/css")

    @app.get("/channel/<channel>/change/<word>/text")
    def text(channel: str, word: str) -> Response:
        with site.lock:
            change = site.change_of(site.shelf.channel(read_channel(channel)), word)
        return _download(change.text, f"{short(change.name)}.change")

    @app.get("/channel/<channel>/file/<word>/raw")
    def raw(channel: str, word: str) -> Response:
        with site.lock:
            held = site.shelf.channel(read_channel(channel))
            inode = site.inode_of(held, word)
            return _download(held.view.text(inode), f"{short(inode[0])}.{inode[1]}.bin")


def _download(data: bytes, name: str) -> Response:
    """Bytes of others: a browser keeps them as a file, and shows nothing of them."""
    response = Response(data, mimetype="application/octet-stream")
    response.headers["Content-Disposition"] = f'attachment; filename="{name}"'
    return response


def _add_faults(app: Flask, site: Site) -> None:
    def said(what: str, more: str, status: int) -> Tuple[str, int]:
        return site.render("fault.html", request.path, what=what, more=more), status

    @app.errorhandler(404)
    def not_found(fault: Exception) -> Tuple[str, int]:
        return said("There is no such page.", "", 404)

    @app.errorhandler(500)
    def broken(fault: Exception) -> Tuple[str, int]:
        return said("This page could not be made.", "The terminal says why.", 500)

    @app.errorhandler(Nothing)
    def nothing(fault: Nothing) -> Tuple[str, int]:
        return said("There is no such page.", str(fault), 404)

    @app.errorhandler(NoChannel)
    def no_channel(fault: NoChannel) -> Tuple[str, int]:
        return said("The repository has no such channel.", str(fault), 404)

    @app.errorhandler(Lost)
    def lost(fault: Lost) -> Tuple[str, int]:
        return said("The repository does not answer.", f"{fault}; {fault.hint}", 503)

    @app.errorhandler(Refused)
    def refused(fault: Refused) -> Tuple[str, int]:
        return said("The repository refused what the page needs.", str(fault), 503)

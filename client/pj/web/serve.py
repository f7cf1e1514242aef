"""The program that listens: the pages by waitress, on loopback unless another address is given."""

from __future__ import annotations

import ipaddress
import sys
from typing import FrozenSet, Optional

import waitress

from ..say import Stop, line
from .app import make_app
from .editing import Editor, add_editing
from .naming import add_naming
from .pages import Site
from .source import Source

THREADS = 4  # pages that are read at once; each is made alone


def is_loopback(host: str) -> bool:
    """Whether an address is reached from this machine alone."""
    if host == "localhost":
        return True
    try:
        return ipaddress.ip_address(host.strip("[]")).is_loopback
    except ValueError:
        return False


def hosts_of(host: str, port: int) -> Optional[FrozenSet[str]]:
    """The hosts for which requests are answered; None for any, where others may come."""
    if not is_loopback(host):
        return None
    names = frozenset(("localhost", "127.0.0.1", "[::1]", host))
    return frozenset(f"{name}:{port}" for name in names) | (names if port == 80 else frozenset())


def serve(source: Source, host: str, port: int, edit: bool, author: Optional[str]) -> int:
    """Listens until it is stopped; with `edit` also to what is to be recorded in the folder."""
    site = Site(source)
    app = make_app(site)
    editor = None
    if edit:
        if source.folder is None:
            raise Stop("--edit resolves the conflicts of a folder", "name one, or go into it")
        editor = Editor(site, source.folder.root, author)
        add_editing(app, site, editor)
        add_naming(app, editor)
    try:
        server = waitress.create_server(app, host=host, port=port, threads=THREADS, ident=None)
    except OSError as fault:
        raise Stop(
            f"{host}:{port} cannot be listened at: {fault}", "give another --port"
        ) from None
    port = int(server.effective_port)
    app.config["hosts"] = hosts_of(host, port)
    place = f"http://{f'[{host}]' if ':' in host else host}:{port}"
    if editor is not None:
        line(f"{place}{editor.path} resolves its conflicts; keep this address to yourself")
    line(f"{place}/ shows {source.title}; stop it with Ctrl-C")
    sys.stdout.flush()
    try:
        server.run()
    finally:
        server.close()
    return 0

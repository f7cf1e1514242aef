"""The command that shows a repository in a browser: web."""

from __future__ import annotations

from argparse import Namespace
from importlib.util import find_spec
from typing import List

from ..say import Stop, line, listed, many
from .start import MAIN

PACKAGES = {  # of Python, and how Debian calls them
    "flask": "python3-flask",
    "jinja2": "python3-jinja2",
    "pygments": "python3-pygments",
    "waitress": "python3-waitress",
}


def missing(names: List[str]) -> List[str]:
    """Which of these packages are not installed for this Python."""
    return [name for name in names if find_spec(name) is None]


def check_packages(names: List[str]) -> None:
    """Stops where one of these packages is missing, and says what to install."""
    lacking = missing(names)
    if lacking:
        debian = " ".join(PACKAGES[name] for name in lacking)
        raise Stop(
            f"pj web needs {listed(lacking)}, which this Python does not have",
            f"apt install {debian}, or pip install {' '.join(lacking)}",
        )


def run_web(given: Namespace) -> int:
    """Shows a repository in a browser, or writes the pages of a channel as files."""
    if given.export is not None:
        return _export(given)
    check_packages(list(PACKAGES))
    from ..web.serve import serve
    from ..web.source import find

    return serve(find(given.repository), given.listen, given.port, given.edit, given.author)


def _export(given: Namespace) -> int:
    check_packages([name for name in PACKAGES if name != "waitress"])
    from ..web.export import export
    from ..web.source import NoChannel, find

    source = find(given.repository)
    own = source.folder.config.channel if source.folder is not None else MAIN
    channel = given.channel or own
    try:
        count = export(source, channel, given.export)
    except NoChannel:
        raise Stop(f"{source.title} has no channel {channel}", "give another --channel") from None
    line(f"wrote {many(count, 'page')} of channel {channel} to {given.export}")
    return 0

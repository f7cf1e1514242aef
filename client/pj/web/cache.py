"""The texts of changes that were read before, in a folder of the reader's own.

Each text is tested by its name when it is read, so what else stands there does
no harm. A text is written beside its place and then renamed, so that two readers
do not disturb each other.
"""

from __future__ import annotations

import os
import tempfile
from typing import Optional

from ..text import Change, Malformed


def usual_place() -> str:
    """The folder of the cache: `pj/changes` in `XDG_CACHE_HOME`, or else in `~/.cache`."""
    base = os.environ.get("XDG_CACHE_HOME") or os.path.join(os.path.expanduser("~"), ".cache")
    return os.path.join(base, "pj", "changes")


class TextCache:
    """Texts by name; what cannot be written is only not kept."""

    def __init__(self, place: Optional[str] = None):
        self.place = place or usual_place()

    def _path(self, name: str) -> str:
        return os.path.join(self.place, name[:2], name[2:])

    def change(self, name: str) -> Optional[Change]:
        """A change that was read before; None where it is not there, or is not whole."""
        try:
            with open(self._path(name), "rb") as file:
                change = Change(file.read())
        except (OSError, Malformed):
            return None
        return change if change.name == name else None

    def save(self, change: Change) -> None:
        """Keeps the text of a change."""
        path = self._path(change.name)
        try:
            os.makedirs(os.path.dirname(path), exist_ok=True)
            handle, beside = tempfile.mkstemp(dir=os.path.dirname(path), suffix=".new")
            with open(handle, "wb") as file:
                file.write(change.text)
            os.replace(beside, path)
        except OSError:
            pass

"""Commands on the file of a kept repository, which ask no server: check, backup."""

from __future__ import annotations

import os
from argparse import Namespace
from collections import Counter
from typing import BinaryIO

from .. import kept
from ..folder import NoFolder, WorkingFolder
from ..paths import spoken
from ..say import Progress, Stop, line, listed, many


def run_check(given: Namespace) -> int:
    """Reads a kept file to its end: how many requests it has, and where it breaks."""
    path = _path_of(given.file)
    words: Counter[str] = Counter()
    progress, fault = Progress("requests read"), ""
    with _open(path) as file:
        try:
            for number, entry in enumerate(kept.entries(file), 1):
                words[entry.word] += 1
                progress(number)
        except kept.Broken as broken:
            fault = str(broken)
        progress.end()
        behind = os.fstat(file.fileno()).st_size - file.tell()
    total = sum(words.values())
    if fault:
        raise Stop(
            f"{spoken(path)} breaks at {fault}",
            f"{many(total, 'request')} before it {'is' if total == 1 else 'are'} whole;"
            " pj backup --whole FILE TO copies what is whole, and FILE stays as it is",
        )
    if not total:
        line(f"{spoken(path)}: no request yet; what keeps it begins with an empty repository")
        return 0
    kinds = ", ".join(f"{count:,} {word}" for word, count in sorted(words.items()))
    line(f"{spoken(path)}: {many(total, 'request')}, each whole ({kinds})")
    if behind:
        line(f"{many(behind, 'byte')} behind them: a write that is not finished does not count")
    return 0


def run_backup(given: Namespace) -> int:
    """Copies a kept file, which may be in use, up to its last whole entry."""
    path, target = _path_of(given.file), os.fsencode(given.to)
    if os.path.isdir(target):
        raise Stop(f"{given.to} is a folder", "name the file that is to be made", status=2)
    for name in (given.to, given.to + ".new"):
        if os.path.lexists(name):
            raise _there(name)
    with _open(path) as file:
        if not given.whole:
            _see_whole(path, file)
        try:
            done = kept.copy(file, target)
        except FileExistsError:  # made since
            raise _there(given.to) from None
    line(f"{given.to}: {many(done.requests, 'request')}, {many(done.size, 'byte')}")
    if done.broken:
        raise Stop(f"{spoken(path)} breaks at {done.broken}", "what stood before it was copied")
    return 0


def _there(name: str) -> Stop:
    return Stop(f"{name} is there already", "take it away, or name another file for the copy")


def _see_whole(path: bytes, file: BinaryIO) -> None:
    """Stops where a file breaks, before anything is copied."""
    try:
        for _ in kept.entries(file):
            pass
    except kept.Broken as fault:
        raise Stop(
            f"{spoken(path)} breaks at {fault}", "--whole copies what is whole before that"
        ) from None
    file.seek(0)


def _open(path: bytes) -> BinaryIO:
    """A kept file, opened for reading alone."""
    if os.path.exists(path) and not os.path.isfile(path):
        raise Stop(f"{spoken(path)} is no regular file", "name the file of a kept repository")
    return open(path, "rb", buffering=1 << 20)


def _path_of(word: str) -> bytes:
    """The file that a person means: by its own name, or by that of a working folder."""
    path = os.fsencode(word)
    if not os.path.isdir(path):
        return path
    try:
        folder = WorkingFolder.find(os.path.abspath(path))
    except NoFolder:
        raise Stop(
            f"{word} is no working folder", "name the file of a kept repository", status=2
        ) from None
    if folder.config.address:
        raise Stop(
            f"the repository of {word} is at {folder.config.address}",
            "look after its file where that server runs",
        )
    return folder.repository

"""Commands that make a working folder: init, clone."""

from __future__ import annotations

import os
from argparse import Namespace

from .. import disk
from ..addresses import FORMS, is_address
from ..exchange import Place, exchange
from ..folder import Config, WorkingFolder
from ..say import Stop, line, many
from ..update import Unwritable
from ..view import Unshowable
from ..wire import Connection, Refused
from ..workspace import Workspace, open_repository
from .common import say_written

MAIN = "main"  # the channel with which each repository begins


def run_init(given: Namespace) -> int:
    """Makes a working folder with a repository of its own."""
    root = os.fsencode(given.folder)
    _fresh(root)
    _make(root, Config(given.channel))
    line(
        f"{given.folder} is a working folder of its own repository, on channel {given.channel}",
        "pj record -m MESSAGE records the files that are in it",
    )
    return 0


def run_clone(given: Namespace) -> int:
    """Makes a working folder with the files of a server's channel."""
    if not is_address(given.address):
        raise Stop(f"{given.address} is no address: give {FORMS}", status=2)
    root = os.fsencode(given.folder)
    _fresh(root)
    if given.thin:
        config = Config(given.channel, address=given.address)
    else:
        config = Config(given.channel, origin=given.address, origin_channel=given.channel)
    _make(root, config)
    folder = WorkingFolder(root)
    with folder.lock(), Workspace(folder) as workspace:
        if not given.thin:
            _take_all(workspace, given.address, given.channel)
        names = workspace.log()
        try:
            written = workspace.write(names)
        except (Unshowable, Unwritable) as fault:
            raise Stop(
                f"the changes are here, but {fault}", "pj log lists them; pj unrecord takes one out"
            ) from None
        line(f"{given.folder} shows {many(len(names), 'change')} of channel {given.channel}")
        return say_written(workspace, written._replace(paths=[]))


def _fresh(root: bytes) -> None:
    """Stops where something stands that a new folder would mix with."""
    name = os.fsdecode(root)
    if os.path.exists(os.path.join(root, disk.OWN)):
        raise Stop(f"{name} is a working folder already", "pj status tells how it stands")
    if os.path.exists(root) and not os.path.isdir(root):
        raise Stop(f"{name} is no folder", "give another name")


def _make(root: bytes, config: Config) -> None:
    """Makes the folder once its repository has answered, and has the channel."""
    with_files = os.path.isdir(root) and bool(os.listdir(root))
    if with_files and (config.address or config.origin):
        raise Stop(f"{os.fsdecode(root)} has files in it", "give a new folder")
    if config.address:
        _probe(config.address, config.channel)
    folder = WorkingFolder.make(root, config)
    session = None
    try:
        session = open_repository(folder)
        if not config.address and config.channel not in session.channels():
            session.ask("new", config.channel)
    except BaseException:
        _unmake(folder, with_files)
        raise
    finally:
        if session is not None:
            session.close()


def _probe(address: str, channel: str) -> None:
    """Sees that a server has a channel."""
    session = Connection(address)
    try:
        channels = session.channels()
    finally:
        session.close()
    if channel not in channels:
        raise Stop(
            f"{address} has no channel {channel}",
            "it has " + ", ".join(f"{name} ({count})" for name, count in channels.items()),
        )


def _unmake(folder: WorkingFolder, with_files: bool) -> None:
    """Takes a folder away that could not be made; what was in it stays."""
    for name in (b"config", b"repository", b"lock"):
        if os.path.exists(folder.path(name)):
            disk.remove(folder.path(name))
    disk.remove_dir(folder.own)
    if not with_files:
        disk.remove_dir(folder.root)


def _take_all(workspace: Workspace, address: str, channel: str) -> None:
    """Reads all that a server's channel holds into the repository of the folder."""
    other = Connection(address)
    try:
        mine = Place(workspace.session, channel)
        exchange(mine, Place(other, channel), give=False, seen=workspace.keep)
    except Refused as refusal:
        if refusal.reason == "channel":
            raise Stop(f"{address} has no channel {channel}") from None
        raise
    finally:
        other.close()

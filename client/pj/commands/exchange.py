"""Commands that exchange with another repository: pull, push, sync."""

from __future__ import annotations

from argparse import Namespace
from typing import Optional, Sequence

from ..addresses import FORMS, is_address
from ..exchange import Exchanged, Place, exchange
from ..say import Stop, line, many, note
from ..text import short
from ..update import Edited, Unwritable
from ..view import Unshowable
from ..wire import Connection, Refused
from ..workspace import Workspace, refuse_edited
from .common import check_within, say_written


def run_pull(workspace: Workspace, given: Namespace) -> int:
    """Takes what the origin has, and writes what came into the files."""
    if _partner(workspace, given) is not None:
        _exchange(workspace, given, take=True, give=False)
    return show_channel(workspace, given.drop)


def run_push(workspace: Workspace, given: Namespace) -> int:
    """Gives the origin what it lacks."""
    if _partner(workspace, given) is not None:
        _exchange(workspace, given, take=False, give=True)
        return 0
    return _put_back(workspace)


def run_sync(workspace: Workspace, given: Namespace) -> int:
    """Both: afterwards the two channels hold the same."""
    if _partner(workspace, given) is None:
        _put_back(workspace)
    else:
        _exchange(workspace, given, take=True, give=True)
    return show_channel(workspace, False)


def _partner(workspace: Workspace, given: Namespace) -> Optional[str]:
    """The server to exchange with; None where the folder's own channel lies on a server."""
    config = workspace.folder.config
    address: Optional[str] = given.address or config.origin
    if address is None and config.address is None:
        raise Stop(
            "this folder has no origin to exchange with",
            "give the address of a server: pj pull HOST:PORT",
        )
    if address is not None and not is_address(address):
        raise Stop(f"{address} is no address: give {FORMS}", status=2)
    return address


def _exchange(workspace: Workspace, given: Namespace, take: bool, give: bool) -> Exchanged:
    config = workspace.folder.config
    address = _partner(workspace, given)
    assert address is not None
    channel: str = given.channel or config.origin_channel or workspace.channel
    if address == config.address and channel == workspace.channel:
        return Exchanged([], [])
    other = Connection(address)
    try:
        mine = Place(workspace.session, workspace.channel)
        done = exchange(mine, Place(other, channel), take, give, seen=workspace.keep)
    except Refused as refusal:
        raise _explain(refusal, address, channel) from None
    finally:
        other.close()
    if take:
        line(f"{many(len(done.took), 'change')} taken from {channel} of {address}")
    if give:
        line(f"{many(len(done.gave), 'change')} given to {channel} of {address}")
    return done


def _explain(refusal: Refused, address: str, channel: str) -> Stop:
    if refusal.reason == "channel":
        return Stop(
            f"{address} has no channel {channel}",
            "pj push makes it there; --channel NAME names another one",
        )
    return Stop(
        f"the exchange stopped: {refusal}", "what came before stays; the same again goes on"
    )


def _put_back(workspace: Workspace) -> int:
    """Gives the server of the folder's own channel what it lacks of what is shown."""
    held = set(workspace.log())
    lacking = [name for name in workspace.folder.shown if name not in held]
    if not lacking:
        line(f"the channel {workspace.channel} of {workspace.where} has all that this folder shows")
        return 0
    texts = [(change.name, change.text) for change in workspace.changes(lacking)]
    workspace.session.put_and_apply(workspace.channel, texts)
    line(f"{many(len(lacking), 'change')} put back into {workspace.channel} of {workspace.where}")
    return 0


def show_channel(workspace: Workspace, drop: bool) -> int:
    """Makes the files show what the channel holds."""
    names = workspace.log()
    if not drop:
        check_within(workspace, names)
    if set(names) == set(workspace.folder.shown):
        line("the files show all that the channel has")
        return 0
    return write_files(workspace, names)


def write_files(workspace: Workspace, names: Sequence[str]) -> int:
    """Writes the files of a set that the channel has, all of them or none."""
    came = [name for name in names if name not in set(workspace.folder.shown)]
    try:
        written = workspace.write(names)
    except Edited as edited:
        raise refuse_edited(
            workspace,
            edited.paths,
            f"{many(len(came), 'change')} came to the channel, and no file was written",
            "record these first (pj record -m MESSAGE), or take them back (pj restore);"
            " then pj pull",
        ) from None
    except (Unshowable, Unwritable) as fault:
        for change in workspace.changes(came[:20]):
            note(f"  {short(change.name)}  {change.by}  {change.title}")
        raise Stop(
            f"the changes came, but no file was written: {fault}",
            "pj unrecord NAME takes the change out that has it",
        ) from None
    if came:
        line(f"the files show {many(len(came), 'more change')}")
    return say_written(workspace, written)
